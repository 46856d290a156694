"""What pip asks by pyproject.toml: a wheel of python/vdpm that holds its library, the proved one
where there is one of these sources, and else one that is built without a proof where need be."""
import platform
from pathlib import Path
from typing import Any, Dict, List, Optional

from library import PROGRAM, TOP, build
from quick_start.install import folder_to_install, version_of
from quick_start.joining import glibc_of
from quick_start.record import read_record
from quick_start.sources import SHARED
from quick_start.stopped import Stopped
from releasing.wheel import wheel

Settings = Optional[Dict[str, Any]]


def built_folder() -> Path:
    try:
        return folder_to_install(PROGRAM)
    except Stopped:
        build(TOP / "unproved")
        return folder_to_install(PROGRAM)


def build_wheel(wheel_directory: str, config_settings: Settings = None,
                metadata_directory: Optional[str] = None) -> str:
    """Puts the wheel into the folder, and answers its name."""
    shared = built_folder() / SHARED
    record, library = read_record(shared), shared.read_bytes()
    if record is None:
        raise Stopped(f"nothing is known of {shared}")
    told = {key: getattr(record, key) for key in ("commit", "built", "kit", "sources")}
    told["proved"] = "yes" if record.proved else "no"
    how = "proved" if record.proved else "not proved, and stops at what a proof rules out"
    said = f"was built of commit {record.commit} by {record.kit}. It is {how}."
    version = f"{version_of(TOP)}+{record.commit.split()[0]}"
    made = wheel(TOP, library, version, glibc_of(library), told, said, platform.machine())
    (name, data), = made.items()
    (Path(wheel_directory) / name).write_bytes(data)
    return name


def build_sdist(sdist_directory: str, config_settings: Settings = None) -> str:
    raise Stopped("there is no archive of the sources but the repository: git archive makes one")


def get_requires_for_build_wheel(config_settings: Settings = None) -> List[str]:
    return []
