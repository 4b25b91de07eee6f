"""Builds the wheel, as pip asks for it: the package, and the module in C that `build` beside this file builds."""

import base64
import hashlib
import os
import re
import subprocess
import sys
import sysconfig
import tempfile
import zipfile

HERE = os.path.dirname(os.path.abspath(__file__))


class UnsupportedOperation(Exception):
    """What is raised, by PEP 517, for an archive of sources: it couldn't be built without the repository and its kit."""


def build_sdist(sdist_directory, config_settings=None):
    raise UnsupportedOperation("`./release` of the repository makes the archive of sources, with its library: for this "
                               "system, make a wheel, by `pip wheel bindings/python`")


def _read(*names):
    with open(os.path.join(HERE, *names), "rb") as file:
        return file.read()


def _license():
    """The license: an archive of sources has it beside this file, the repository at its top."""
    return _read("LICENSE") if os.path.exists(os.path.join(HERE, "LICENSE")) else _read("..", "..", "LICENSE")


def _project():
    """What pyproject.toml says, by its names."""
    text = _read("pyproject.toml").decode()
    project = dict(re.findall(r'^([\w-]+) = "(.*)"$', text, flags=re.M))
    project["author"] = re.search(r'^authors = .*name = "(.*?)"', text, flags=re.M).group(1)
    project["keywords"] = ",".join(re.findall(r'"(.*?)"', re.search(r"^keywords = (.*)", text, flags=re.M).group(1)))
    project["url"] = "{}, {}".format(*re.search(r'^"(.*)" = "(.*)"$', text, flags=re.M).groups())
    return project


def metadata():
    """The package's core metadata."""
    form = ("Metadata-Version: 2.4\nName: {name}\nVersion: {version}\nSummary: {description}\nAuthor: {author}\n"
            "License-Expression: {license}\nLicense-File: LICENSE\nKeywords: {keywords}\nProject-URL: {url}\n"
            "Requires-Python: {requires-python}\nDescription-Content-Type: text/markdown\n\n")
    return form.format(**_project()) + _read("README.md").decode()


def _platform(module, settings):
    """The tags of the systems that a module is for: this one alone, or with the setting `manylinux` each with the glibc that it needs."""
    if not (settings or {}).get("manylinux"):
        return re.sub(r"[-.]", "_", sysconfig.get_platform())
    newest = max((int(minor) for minor in re.findall(rb"GLIBC_2\.(\d+)", module)), default=0)
    # (`e_machine` of its ELF header)
    processor = {62: "x86_64", 183: "aarch64"}[module[18]]
    # (older ones have a name of their own, which older pips know too)
    names = "manylinux_2_{0}_{1}" if newest > 17 else "manylinux_2_17_{1}.manylinux2014_{1}"
    # (one that is linked with no C library takes that of its Python, which may be musl)
    if b"libc.so" not in module:
        names += ".musllinux_1_1_{1}"
    return names.format(newest, processor)


def _module():
    with tempfile.TemporaryDirectory() as folder:
        name = os.path.join(folder, "_ansi_str.abi3.so")
        built = subprocess.run([os.path.join(HERE, "build"), name], env=dict(os.environ, PYTHON=sys.executable))
        if built.returncode != 0:
            # (`build` has said what is missing)
            sys.exit(built.returncode)
        return _read(name)


def _line(name, data):
    """A file's line in RECORD: its name, its hash and its length."""
    digest = base64.urlsafe_b64encode(hashlib.sha256(data).digest()).rstrip(b"=").decode()
    return "{},sha256={},{}\n".format(name, digest, len(data))


def build_wheel(wheel_directory, config_settings=None, metadata_directory=None):
    project, module = _project(), _module()
    stem = "{}-{}".format(project["name"].replace("-", "_"), project["version"])
    # (any CPython from 3.6 on)
    tag = "cp36-abi3-" + _platform(module, config_settings)
    tags = "".join("Tag: cp36-abi3-{}\n".format(platform) for platform in tag.split("-")[-1].split("."))
    info = stem + ".dist-info/"
    names = sorted(name for name in os.listdir(os.path.join(HERE, "src", "ansi_str")) if name.endswith(".py"))
    files = {"ansi_str/" + name: _read("src", "ansi_str", name) for name in names + ["py.typed"]}
    files["ansi_str/_ansi_str.abi3.so"] = module
    files[info + "licenses/LICENSE"] = _license()
    files[info + "METADATA"] = metadata().encode()
    files[info + "WHEEL"] = "Wheel-Version: 1.0\nGenerator: ansi_str\nRoot-Is-Purelib: false\n{}".format(tags).encode()
    record = "".join(_line(name, data) for name, data in files.items())
    files[info + "RECORD"] = (record + info + "RECORD,,\n").encode()
    wheel = "{}-{}.whl".format(stem, tag)
    with zipfile.ZipFile(os.path.join(wheel_directory, wheel), "w", zipfile.ZIP_DEFLATED) as archive:
        for name, data in files.items():
            entry = zipfile.ZipInfo(name)
            entry.compress_type, entry.external_attr = zipfile.ZIP_DEFLATED, 0o100644 << 16
            archive.writestr(entry, data)
    return wheel
