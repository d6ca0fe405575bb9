"""Servers for tests, each in a folder of its own, that can be killed and started again."""
import os
import pathlib
import pwd
import signal
import subprocess
import time


class Server:
    """A server process. `kill` gives it no time for anything."""

    def __init__(self, folder: pathlib.Path):
        self.folder = folder
        self.process = None

    def start(self) -> None:
        with open(self.folder / "server.log", "ab") as log:
            self.process = subprocess.Popen(self.words(), stdout=log, stderr=log, stdin=subprocess.DEVNULL, cwd=self.folder, user=self.user())

    def kill(self) -> None:
        self.process.send_signal(signal.SIGKILL)
        self.process.wait()

    def is_running(self) -> bool:
        return self.process.poll() is None

    def user(self):
        return None


class RedisServer(Server):
    """Syncs each entry before it answers."""

    def words(self) -> list[str]:
        return [
            "redis-server", "--port", "0", "--unixsocket", str(self.folder / "socket"), "--dir", str(self.folder), "--save", "",
            "--appendonly", "yes", "--appendfsync", "always",
        ]  # fmt: skip

    def address(self) -> str:
        return f"unix://{self.folder}/socket"


class PostgresServer(Server):
    """With the settings that it has when it is installed."""

    def __init__(self, folder: pathlib.Path):
        super().__init__(folder)
        self.programs = max(pathlib.Path("/usr/lib/postgresql").glob("*/bin"), key=lambda path: int(path.parent.name))
        if self.user() is not None:
            os.chown(folder, self.user(), -1)
            folder.chmod(0o755)
        words = [self.programs / "initdb", "-D", folder / "data", "-U", "grove", "-A", "trust", "-E", "UTF8", "--no-instructions"]
        subprocess.run(words, check=True, stdout=subprocess.DEVNULL, user=self.user(), cwd=folder)

    def words(self) -> list[str]:
        return [str(self.programs / "postgres"), "-D", str(self.folder / "data"), "-k", str(self.folder), "-h", ""]

    def start(self) -> None:
        """Tries until the children of a killed server are gone, and it stays."""
        for _ in range(100):
            super().start()
            time.sleep(0.2)
            if self.is_running():
                return
        raise RuntimeError((self.folder / "server.log").read_text()[-2000:])

    def address(self) -> str:
        return f"postgresql://grove@/postgres?host={self.folder}"

    def user(self):
        """PostgreSQL does not run as root."""
        return pwd.getpwnam("postgres").pw_uid if os.getuid() == 0 else None
