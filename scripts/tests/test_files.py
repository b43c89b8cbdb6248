"""Files that appear whole or not at all, and text for people."""
import os
import unittest
from pathlib import Path

from support import InFolder

from dejavu_tools.console import escaped, parts_around, readable
from dejavu_tools.errors import ToolError
from dejavu_tools.files import check_place, write_whole


class Whole(InFolder):
    """Files that are written together."""

    def check_fault(self, name, why):
        """Where the last of three files can't be written, none appears, and what stood there stays."""
        self.write("b", "as before")
        before = self.names()
        texts = {self.folder / "a": b"A", self.folder / "b": b"B", self.folder / name: b"C"}
        with self.assertRaises(ToolError) as caught:
            write_whole(texts)
        self.assertEqual(str(caught.exception), f"{self.folder / name}: {why}")
        self.assertEqual(self.names(), before)
        self.assertEqual((self.folder / "b").read_bytes(), b"as before")

    def test_files(self):
        self.write("b", "as before")
        write_whole({self.folder / "a": b"A", self.folder / "b": b"\xff"})
        self.assertEqual(self.names(), ["a", "b"])
        self.assertEqual(((self.folder / "a").read_bytes(), (self.folder / "b").read_bytes()), (b"A", b"\xff"))

    def test_links_stay(self):
        (self.folder / "link").symlink_to("b")
        self.write("b", "as before")
        write_whole({self.folder / "link": b"B"})
        self.assertEqual(self.names(), ["b", "link"])
        self.assertEqual(((self.folder / "b").read_bytes(), (self.folder / "link").is_symlink()), (b"B", True))

    def test_streams_are_written_to(self):
        pipe = self.folder / "pipe"
        os.mkfifo(pipe)
        reading = os.open(pipe, os.O_RDONLY | os.O_NONBLOCK)
        self.addCleanup(os.close, reading)
        for path in (pipe, Path(os.devnull)):
            check_place(path)
        write_whole({pipe: b"P", Path(os.devnull): b"D", self.folder / "a": b"A"})
        self.assertEqual(os.read(reading, 9), b"P")
        self.assertTrue(pipe.is_fifo() and Path(os.devnull).is_char_device())
        self.assertEqual(self.names(), ["a", "pipe"])

    def test_stream_that_cannot_be_written(self):
        with self.assertRaises(ToolError) as caught:
            write_whole({Path("/dev/full"): b"C"})
        self.assertEqual(str(caught.exception), "/dev/full: No space left on device")
        self.assertTrue(Path("/dev/full").is_char_device())

    def test_folder_that_is_not_there(self):
        self.check_fault("gone/c", "No such file or directory")

    def test_folder_in_the_place_of_a_file(self):
        (self.folder / "c").mkdir()
        self.check_fault("c", "Is a directory")

    def test_name_that_is_too_long(self):
        self.check_fault("c" * 300, "File name too long")

    def test_mode(self):
        mask = os.umask(0o027)
        self.addCleanup(os.umask, mask)
        write_whole({self.folder / "a": b""})
        self.assertEqual((self.folder / "a").stat().st_mode & 0o777, 0o640)


class Shown(unittest.TestCase):
    """Text that is shown to people."""

    def test_readable(self):
        for text, shown in (
            ("a\tb", "a\tb"), ("a\nb\x1b\x7f", "a\\nb\\x1b\\x7f"), (b"\xc3\xa4\xff", "\u00e4\\xff"),
            ("\udcff", "\\xff"), ("\u202e", "\\u202e"), ("c:\\d", "c:\\d"),
        ):
            with self.subTest(text=text):
                self.assertEqual(readable(text), shown)

    def test_escaped(self):
        self.assertEqual(escaped(bytes(range(9, 15))), r"\t\n\x0b\x0c\r\x0e")
        self.assertEqual(escaped(b" ~\\'\x7f\x80\xff"), r" ~\\'\x7f\x80\xff")

    def test_parts(self):
        for at, room, parts in (
            (0, 9, ("", "abcde")), (0, 5, ("", "abcde")), (0, 4, ("", "abcd..")), (2, 2, ("ab", "cd..")),
            (3, 2, ("..bc", "de")), (5, 9, ("abcde", "")),
        ):
            with self.subTest(at=at, room=room):
                self.assertEqual(parts_around(b"abcde", at, room, escaped), parts)


if __name__ == "__main__":
    unittest.main()
