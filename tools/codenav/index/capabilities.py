"""What the client of a language server says that it can."""

TOKENS = (
    "namespace type class enum interface struct typeParameter parameter variable property enumMember "
    "event function method macro keyword modifier comment string number regexp operator decorator"
)
LINKS = {"linkSupport": True}
CAPABILITIES = {
    "general": {"positionEncodings": ["utf-16"]},
    "textDocument": {
        "definition": LINKS,
        "declaration": LINKS,
        "implementation": LINKS,
        "hover": {"contentFormat": ["markdown", "plaintext"]},
        "documentSymbol": {"hierarchicalDocumentSymbolSupport": True},
        "publishDiagnostics": {},
        "semanticTokens": {
            "dynamicRegistration": True,
            "requests": {"full": True},
            "tokenTypes": TOKENS.split(),
            "tokenModifiers": [],
            "formats": ["relative"],
        },
    },
    "experimental": {"serverStatusNotification": True},
    "window": {"workDoneProgress": True},
    "workspace": {"configuration": True, "workspaceFolders": True},
}
