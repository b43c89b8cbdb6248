"""Libraries that are put into the folder of the repository, by the real pip, which sees nothing but a made-up one."""
import os
import subprocess
import sys
import unittest
import zipfile
from unittest import mock

from support import InFolder

from dejavu_tools import environment
from dejavu_tools.errors import ToolError

LIBRARY = "made_up_for_a_test"


class Provided(InFolder):
    """The pinned version of a library, where the Python that runs has it, and where it hasn't."""

    def setUp(self):
        super().setUp()
        variables = {"PIP_NO_INDEX": "1", "PIP_FIND_LINKS": str(self.folder), "PIP_CONFIG_FILE": os.devnull}
        self.kept = self.folder / "kept"
        for patch in (
            mock.patch.dict(os.environ, variables),
            mock.patch.dict(environment.VERSIONS, {LIBRARY: "1.0"}),
            mock.patch.object(environment, "FOLDER", self.kept),
            mock.patch.object(environment, "say"),
            mock.patch.object(sys, "path", list(sys.path)),
        ):
            patch.start()
            self.addCleanup(patch.stop)
        self.addCleanup(sys.modules.pop, LIBRARY, None)

    def wheel(self, version):
        """Writes a wheel of the library, with what pip asks of one."""
        about = f"{LIBRARY}-{version}.dist-info"
        with zipfile.ZipFile(self.folder / f"{LIBRARY}-{version}-py3-none-any.whl", "w") as wheel:
            wheel.writestr(f"{LIBRARY}.py", f"version = {version!r}\n")
            wheel.writestr(f"{about}/METADATA", f"Metadata-Version: 2.1\nName: {LIBRARY}\nVersion: {version}\n")
            wheel.writestr(f"{about}/WHEEL", "Wheel-Version: 1.0\nRoot-Is-Purelib: true\nTag: py3-none-any\n")
            wheel.writestr(f"{about}/RECORD", "")

    def check_provided(self):
        environment.provide(LIBRARY)
        self.assertEqual(__import__(LIBRARY).version, "1.0")
        self.assertEqual(os.listdir(self.kept), [f"{LIBRARY}-1.0"])

    def test_installed_once(self):
        self.wheel("1.0")
        self.wheel("1.1")
        self.check_provided()
        environment.say.assert_called_once_with(f"{LIBRARY}==1.0 goes into {self.kept}, once")
        with mock.patch.object(environment, "install") as install:
            self.check_provided()
        install.assert_not_called()

    def test_what_the_python_has(self):
        with mock.patch.object(environment.metadata, "version", return_value="1.0"):
            environment.provide(LIBRARY)
        self.assertFalse(self.kept.exists())

    def test_another_version_is_not_taken(self):
        self.wheel("1.0")
        with mock.patch.object(environment.metadata, "version", return_value="1.1"):
            self.check_provided()

    def check_unavailable(self, why):
        with self.assertRaises(ToolError) as caught:
            environment.provide(LIBRARY)
        wanted = f"{LIBRARY}==1.0"
        told = f"{wanted} is wanted, and can't be had: {why}: {sys.executable} -m pip install {wanted}"
        self.assertEqual((str(caught.exception), caught.exception.status), (told, 2))
        self.assertFalse(self.kept.exists() and os.listdir(self.kept))

    def test_no_version_like_that(self):
        self.wheel("1.1")
        self.check_unavailable(f"ERROR: No matching distribution found for {LIBRARY}==1.0")

    def test_no_pip(self):
        text = f"{sys.executable}: No module named pip"
        done = subprocess.CompletedProcess([], 1, stdout=f"{text}\n")
        with mock.patch.object(environment.subprocess, "run", return_value=done):
            self.check_unavailable(text)

    def test_folder_that_cannot_be_made(self):
        self.wheel("1.0")
        self.kept.write_bytes(b"")
        with self.assertRaises(ToolError) as caught:
            environment.provide(LIBRARY)
        self.assertIn("can't be had", str(caught.exception))


if __name__ == "__main__":
    unittest.main()
