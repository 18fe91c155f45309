"""Files of users: they're read without a wait, and written so that the old text or the new one is there."""

import os
import shutil
import stat
import subprocess
import sys
import tempfile
import unittest
from pathlib import Path
from typing import Optional

from .. import files
from .support import TOP

#: Replaces a file where no file may be longer than some bytes, as if the disk were full.
_LIMITED = """\
import resource, sys
from companion import files
resource.setrlimit(resource.RLIMIT_FSIZE, (1000, 1000))
try:
    files.replace(sys.argv[1], b"n" * 5000)
except OSError:
    sys.exit(3)
"""


class Folder(unittest.TestCase):
    """Tests in a folder of their own."""

    def setUp(self) -> None:
        self.folder = tempfile.mkdtemp(prefix="pedx-test-")
        self.addCleanup(shutil.rmtree, self.folder)

    def path(self, name: str) -> Path:
        return Path(self.folder, name)

    def file(self, name: str, text: str = "old") -> str:
        self.path(name).write_text(text)
        return str(self.path(name))

    def pipe(self) -> str:
        os.mkfifo(self.path("pipe"))
        return str(self.path("pipe"))


def mounted(test: unittest.TestCase, size: str = "size=64k") -> Optional[str]:
    """A small file system for a test; none where none may be mounted."""
    place = tempfile.mkdtemp(prefix="pedx-full-")
    test.addCleanup(os.rmdir, place)
    try:
        done = subprocess.run(
            ["mount", "-t", "tmpfs", "-o", size, "none", place], stdout=subprocess.DEVNULL, stderr=subprocess.DEVNULL,
            check=False,
        )
    except OSError:
        return None
    if done.returncode != 0:
        return None
    test.addCleanup(lambda: subprocess.run(["umount", "-l", place], check=True))
    return place


def fill(place: str) -> None:
    """Fills a file system to its last byte."""
    with open(Path(place, "rest"), "wb", buffering=0) as rest:
        try:
            while True:
                rest.write(b"x" * 512)
        except OSError:
            pass


class Replaced(Folder):
    def test_new_file(self) -> None:
        """Its mode is that of any new file."""
        files.replace(str(self.path("p")), b"new")
        Path(self.folder, "other").touch()
        self.assertEqual(self.path("p").read_bytes(), b"new")
        self.assertEqual(self.path("p").stat().st_mode, self.path("other").stat().st_mode)

    def test_rights(self) -> None:
        name = self.file("p")
        for mode in (0o640, 0o755, 0o604):
            os.chmod(name, mode)
            files.replace(name, b"new")
            self.assertEqual(stat.S_IMODE(os.stat(name).st_mode), mode)
        self.assertEqual(os.listdir(self.folder), ["p"])

    @unittest.skipUnless(os.geteuid() == 0, "only root may give files away")
    def test_owner(self) -> None:
        name = self.file("p")
        os.chown(name, 1234, 2345)
        os.chmod(name, 0o660)
        files.replace(name, b"new")
        status = os.stat(name)
        self.assertEqual((status.st_uid, status.st_gid, stat.S_IMODE(status.st_mode)), (1234, 2345, 0o660))

    @unittest.skipIf(os.geteuid() == 0, "root may write all files")
    def test_protected(self) -> None:
        name = self.file("p")
        os.chmod(name, 0o444)
        with self.assertRaises(PermissionError):
            files.replace(name, b"new")

    def test_symbolic_link(self) -> None:
        """The link stays, also one to a file that isn't there yet."""
        self.path("sub").mkdir()
        for target in ("old", "none"):
            link = self.path(f"link-{target}")
            link.symlink_to(Path("sub", target))
        self.path("sub").joinpath("old").write_text("old")
        for target in ("old", "none"):
            files.replace(str(self.path(f"link-{target}")), b"new")
            self.assertTrue(self.path(f"link-{target}").is_symlink())
            self.assertEqual(self.path("sub").joinpath(target).read_text(), "new")

    def test_not_plain(self) -> None:
        for name in (self.folder, self.pipe(), os.devnull):
            with self.assertRaises(OSError, msg=name):
                files.replace(name, b"new")
        self.assertTrue(stat.S_ISFIFO(os.stat(self.path("pipe")).st_mode))

    def test_without_consent(self) -> None:
        name = self.file("p")
        with self.assertRaisesRegex(OSError, "another program has written it"):
            files.replace(name, b"new", lambda: False)
        self.assertEqual((self.path("p").read_text(), os.listdir(self.folder)), ("old", ["p"]))

    def test_interrupt(self) -> None:
        """An exception between the writing and the rename leaves the old text, and nothing beside it."""
        def interrupted() -> bool:
            raise KeyboardInterrupt

        name = self.file("p")
        with self.assertRaises(KeyboardInterrupt):
            files.replace(name, b"new", interrupted)
        self.assertEqual((self.path("p").read_text(), os.listdir(self.folder)), ("old", ["p"]))


class Full(Folder):
    def test_full_file_system(self) -> None:
        place = mounted(self)
        if place is None:
            self.skipTest("no file system may be mounted")
        name = str(Path(place, "p"))
        Path(name).write_bytes(b"o" * 9000)
        fill(place)
        with self.assertRaisesRegex(OSError, "No space left"):
            files.replace(name, b"n" * 9000)
        with self.assertRaisesRegex(OSError, "No space left"):
            files.create(name + "2", b"n" * 9000)
        self.assertEqual(Path(name).read_bytes(), b"o" * 9000)
        self.assertEqual(sorted(os.listdir(place)), ["p", "rest"])

    def test_limit(self) -> None:
        """A write that ends in the middle leaves the old text."""
        name = self.file("p", "o" * 900)
        done = subprocess.run([sys.executable, "-c", _LIMITED, name], cwd=TOP, check=False)
        self.assertEqual(done.returncode, 3)
        self.assertEqual((self.path("p").read_text(), os.listdir(self.folder)), ("o" * 900, ["p"]))


class Pipes(Folder):
    """Where nothing is at the other end, nothing waits."""

    def test_no_writer(self) -> None:
        with self.assertRaisesRegex(OSError, "nothing writes to this pipe"):
            files.read_bytes(self.pipe())

    def test_no_reader(self) -> None:
        with self.assertRaisesRegex(OSError, "nothing reads from this pipe"):
            files.put(self.pipe(), b"new")

    def test_writer(self) -> None:
        """A writer may take its time, and may have ended."""
        for pause in ("", "sleep 0.1;"):
            with subprocess.Popen(["sh", "-c", f"{pause} echo old; echo more"], stdout=subprocess.PIPE) as writer:
                assert writer.stdout is not None
                if not pause:
                    writer.wait()
                self.assertEqual(files.read_bytes(f"/dev/fd/{writer.stdout.fileno()}"), b"old\nmore\n")

    def test_reader(self) -> None:
        with subprocess.Popen(["cat"], stdin=subprocess.PIPE, stdout=subprocess.PIPE) as reader:
            assert reader.stdin is not None and reader.stdout is not None
            files.put(f"/dev/fd/{reader.stdin.fileno()}", b"new")
            reader.stdin.close()
            self.assertEqual(reader.stdout.read(), b"new")

    def test_devices(self) -> None:
        files.put(os.devnull, b"new")
        self.assertEqual(files.read_bytes(os.devnull), b"")
        if os.path.exists("/dev/zero"):
            self.assertEqual(files.read_bytes("/dev/zero", 100), b"\0" * 100)


if __name__ == "__main__":
    unittest.main()
