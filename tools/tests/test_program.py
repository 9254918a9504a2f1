"""Which file is the program, and where a server's port comes from."""

import os
import socket
import tempfile
import unittest

from codenav.program import KEPT, free_port, is_program


class Files(unittest.TestCase):
    """Files that may be the program."""

    def test_which_is_one(self) -> None:
        """A file for the system's loader that may be called: no script, no folder, nothing else."""
        folder = self.enterContext(tempfile.TemporaryDirectory())
        for body, mode, is_one in (
            (b"\x7fELF\x02", 0o755, True),
            (b"\x7fELF\x02", 0o644, False),
            (b"#!/bin/sh\n", 0o755, False),
            (b"", 0o755, False),
        ):
            path = os.path.join(folder, "codenav")
            with open(path, "wb") as file:
                file.write(body)
            os.chmod(path, mode)
            self.assertEqual(is_program(path), is_one, (body, mode))
        for other in folder, f"{folder}/none", f"{path}/none":
            self.assertFalse(is_program(other), other)


class Ports(unittest.TestCase):
    """Ports that a server is to listen on later."""

    def test_a_port_is_kept_for_its_server(self) -> None:
        """Nobody listens on it, no connection gets it, and who names it as a server does may have
        it, once and again."""
        port = free_port()
        address = "127.0.0.1", port
        with self.assertRaises(ConnectionRefusedError):
            socket.create_connection(address)
        for _ in range(2):
            with socket.socket() as connection, self.assertRaises(OSError):
                connection.bind(address)
            socket.create_server(address).close()

    def test_many_ports(self) -> None:
        """The last ones are different, and of more no socket is kept."""
        ports = [free_port() for _ in range(150)]
        kept = [one.getsockname()[1] for one in KEPT]
        self.assertEqual(sorted(set(ports[-100:])), sorted(kept))
