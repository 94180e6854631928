"""The build backend that pip calls for this repository (PEP 517): it makes wheels of the released libraries, as bin/package does."""
import os
import platform
import sys

sys.path.insert(0, os.path.join(os.path.dirname(os.path.dirname(os.path.abspath(__file__))), "tools"))
import packages  # noqa: E402 (the path comes first)


def build_wheel(wheel_directory, config_settings=None, metadata_directory=None):
    """Makes the wheel for this processor and returns its name."""
    processor = platform.machine()
    if sys.platform != "linux" or processor not in packages.PROCESSORS:
        raise SystemExit(f"hullbook: the libraries are for Linux on {' and '.join(packages.PROCESSORS)}, and this is {sys.platform} on {processor}")
    return packages.make_wheel(wheel_directory, processor)


def build_sdist(sdist_directory, config_settings=None):
    """Makes the archive that wheels are built from and returns its name."""
    return packages.make_sdist(sdist_directory)
