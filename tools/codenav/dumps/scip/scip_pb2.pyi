# What scip_pb2.py has, for the type checker: written by hand, since Debian has no stubs of protobuf for what protoc writes.
from abc import ABCMeta
from typing import Iterable, Sequence, TypeVar

Own = TypeVar("Own", bound="Message")
Field = TypeVar("Field")

class Message:
    def MergeFromString(self, serialized: bytes) -> int: ...
    def ParseFromString(self, serialized: bytes) -> int: ...
    def SerializeToString(self) -> bytes: ...
    def MergeFrom(self: Own, other: Own) -> None: ...
    def CopyFrom(self: Own, other: Own) -> None: ...

class Repeated(Sequence[Field], metaclass=ABCMeta):
    def append(self, value: Field) -> None: ...
    def extend(self, values: Iterable[Field]) -> None: ...

class SymbolRole:
    @staticmethod
    def Value(name: str) -> int: ...

class ToolInfo(Message):
    name: str
    version: str

class Metadata(Message):
    tool_info: ToolInfo
    project_root: str

class Relationship(Message):
    symbol: str
    is_reference: bool
    is_implementation: bool
    is_definition: bool

class SymbolInformation(Message):
    symbol: str
    documentation: Repeated[str]
    relationships: Repeated[Relationship]
    signature_documentation: Document

class Occurrence(Message):
    range: Repeated[int]
    symbol: str
    symbol_roles: int
    override_documentation: Repeated[str]

class Document(Message):
    relative_path: str
    occurrences: Repeated[Occurrence]
    symbols: Repeated[SymbolInformation]
    language: str
    text: str
    position_encoding: int

class Index(Message):
    metadata: Metadata
    documents: Repeated[Document]
    external_symbols: Repeated[SymbolInformation]
