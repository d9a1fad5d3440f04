"""The package of python/ in a checkout, as pip installs it with nothing fetched, and its stubs."""

import ast
import base64
import csv
import hashlib
import inspect
import os
import re
import shutil
import subprocess
import zipfile

from library import TOP, VERSION

MAJOR = VERSION.split(".")[0]
LOADED = "import bogzhami.library; print(bogzhami.library.LIBRARY._name)"
# What an installed package says: its version, where it is, whether it has types, and its library.
ASKED = """import importlib.metadata, os, bogzhami, bogzhami.library
folder = os.path.dirname(bogzhami.__file__)
print(importlib.metadata.version("bogzhami"), bogzhami.__version__)
print(folder)
print(*(os.path.exists(os.path.join(folder, *path)) for path in (["py.typed"], ["__init__.pyi"], ["pyyaml", "__init__.pyi"])))
print(bogzhami.library.LIBRARY._name)"""
OF_THE_LIBRARY = ("BOGZHAMI_LIBRARY", "LD_LIBRARY_PATH", "PYTHONPATH")


def run(words, data=b"", **more):
    """What a command writes, and its status, in an environment that names no library and no package."""
    kept = {name: value for name, value in os.environ.items() if name not in OF_THE_LIBRARY and not name.startswith("PIP_")}
    environment = {**kept, "PYTHONDONTWRITEBYTECODE": "1", "PIP_DISABLE_PIP_VERSION_CHECK": "1", **more}
    done = subprocess.run(words, input=data, env=environment, cwd="/", capture_output=True, timeout=120)
    return done.stdout.decode(), done.stderr.decode(), done.returncode


def copy_of_checkout(room):
    """What a checkout has for Python after ffi/build, in a folder with a blank in its name."""
    top = os.path.join(room, "a checkout")
    os.makedirs(os.path.join(top, "ffi"))
    shutil.copy(os.path.join(TOP, "ffi", "bogzhami.h"), os.path.join(top, "ffi"))
    shutil.copytree(os.path.join(TOP, "ffi", "out"), os.path.join(top, "ffi", "out"), symlinks=True)
    built = shutil.ignore_patterns("__pycache__", "libbogzhami.so*")
    shutil.copytree(os.path.join(TOP, "python"), os.path.join(top, "python"), ignore=built)
    return top


def files_of(folder):
    return sorted(os.path.relpath(os.path.join(path, name), folder) for path, _, names in os.walk(folder) for name in names)


def wrong_in_checkout(python, top):
    """What is wrong with the library of a checkout: it is found, but not from a folder that only stands where one might."""
    out = os.path.join(top, "ffi", "out", f"libbogzhami.so.{MAJOR}")
    path = {"PYTHONPATH": os.path.join(top, "python")}
    found = run([python, "-c", LOADED], **path)
    listed = run([python, "-m", "bogzhami"], b"a: 1", **path)
    os.rename(os.path.join(top, "ffi", "bogzhami.h"), os.path.join(top, "header"))
    other = run([python, "-c", LOADED], **path)
    os.rename(os.path.join(top, "header"), os.path.join(top, "ffi", "bogzhami.h"))
    checks = {
        "found": found == (out + "\n", "", 0),
        "listed": listed[0].count("\n") == 8 and listed[1:] == ("", 0),
        "no checkout": other[0] != out + "\n" and (other[2] == 0 or "ffi/build makes it" in other[1]),
    }
    return [name for name, good in checks.items() if not good]


def wrong_in_wheel(path):
    """What is wrong with a wheel: each file is in its list, with its length and digest, and has rights that all may read."""
    wrong = []
    with zipfile.ZipFile(path) as wheel:
        names = [entry.filename for entry in wheel.infolist()]
        record = next(name for name in names if name.endswith("/RECORD"))
        rows = {name: (digest, size) for name, digest, size in csv.reader(wheel.read(record).decode().splitlines())}
        for entry in wheel.infolist():
            data = wheel.read(entry)
            digest = "sha256=" + base64.urlsafe_b64encode(hashlib.sha256(data).digest()).decode().rstrip("=")
            wanted = ("", "") if entry.filename == record else (digest, str(len(data)))
            if rows.get(entry.filename) != wanted or entry.external_attr >> 16 != 0o100644:
                wrong.append(entry.filename)
    return wrong + sorted(set(rows) ^ set(names))


def make_virtual(python, folder):
    """The Python of a new virtual environment, or None if that Python makes none."""
    made = subprocess.run([python, "-m", "venv", folder], capture_output=True).returncode == 0
    own = os.path.join(folder, "bin", "python")
    return own if made and run([own, "-m", "pip", "--version"])[2] == 0 else None


def wrong_installed(own, folder, room):
    """What is wrong with what pip installed from a folder: the package is whole, and all of it goes with it."""
    site = run([own, "-c", "import sysconfig; print(sysconfig.get_path('platlib'))"])[0].strip()
    before = files_of(site)
    installed = run([own, "-m", "pip", "install", "--no-index", folder])
    if installed[2]:
        return [installed[1]]
    package = os.path.join(site, "bogzhami")
    said = f"{VERSION} {VERSION}\n{package}\nTrue True True\n{os.path.join(package, 'libbogzhami.so.' + MAJOR)}\n"
    told, listed = run([own, "-c", ASKED]), run([own, "-m", "bogzhami"], b"a: 1")
    checks = {
        told: told == (said, "", 0),
        listed: listed[0].count("\n") == 8 and listed[1:] == ("", 0),
        "uninstall": run([own, "-m", "pip", "uninstall", "-y", "bogzhami"])[2] == 0 and files_of(site) == before,
    }
    return [name for name, good in checks.items() if not good]


def wrong_editable(own, folder):
    """What is wrong with an installation that leaves the package where it is."""
    installed = run([own, "-m", "pip", "install", "--no-index", "-e", folder])
    told = run([own, "-c", ASKED])
    run([own, "-m", "pip", "uninstall", "-y", "bogzhami"])
    out = os.path.join(os.path.dirname(folder), "ffi", "out", f"libbogzhami.so.{MAJOR}")
    said = f"{VERSION} {VERSION}\n{os.path.join(folder, 'bogzhami')}\nTrue True True\n{out}\n"
    return [] if told == (said, "", 0) else [installed, told]


def wrong_wheels(own, top, room):
    """What is wrong with the wheels of a checkout: two are the same bytes; without a library there is none, and it is said why."""
    folder, paths = os.path.join(top, "python"), []
    for name in ("first", "second"):
        made = run([own, "-m", "pip", "wheel", "--no-index", "-w", os.path.join(room, name), folder])
        if made[2]:
            return [made[1]]
        paths += [os.path.join(room, name, one) for one in os.listdir(os.path.join(room, name))]
    datas = [open(path, "rb").read() for path in paths]
    wrong = wrong_in_wheel(paths[0]) + ([] if len(datas) == 2 and datas[0] == datas[1] else ["two wheels differ"])
    library = os.path.join(top, "ffi", "out", f"libbogzhami.so.{MAJOR}")
    os.rename(library, library + ".away")
    none = run([own, "-m", "pip", "install", "--no-index", folder])
    named = run([own, "-m", "pip", "wheel", "--no-index", "-w", room, folder], BOGZHAMI_LIBRARY=library + ".away")
    os.rename(library + ".away", library)
    if none[2] == 0 or not re.search(r"There is no library to put into the wheel: ffi/build makes ", none[1] + none[0]):
        wrong.append(none)
    return wrong if named[2] == 0 else [*wrong, named]


def wrong_with_pip(python, top, room):
    """What is wrong with the package as pip of a Python installs it, or None if that has no virtual environments with pip."""
    own, folder = make_virtual(python, os.path.join(room, "virtual")), os.path.join(top, "python")
    if own is None:
        return None
    before = files_of(top)
    wrong = wrong_installed(own, folder, room) + wrong_editable(own, folder) + wrong_wheels(own, top, room)
    return wrong if files_of(top) == before else [*wrong, "pip has changed the checkout"]


# STUBS


def parameters(arguments):
    """The names of the parameters of a function of a stub, and which of them may be left out."""
    names = [one.arg for one in (*arguments.posonlyargs, *arguments.args)]
    required = len(names) - len(arguments.defaults)
    told = [(name, at >= required) for at, name in enumerate(names)]
    return told + ([(arguments.vararg.arg, False)] if arguments.vararg else [])


def parameters_there(function):
    parameters = inspect.signature(function).parameters.values()
    return [(one.name, one.default is not one.empty) for one in parameters]


def wrong_in_class(stub, there):
    """What a class of a stub has that the class has not, or has in another form."""
    functions = [one for one in stub.body if isinstance(one, ast.FunctionDef)]
    wrong = [one.name for one in functions if parameters(one.args) != parameters_there(getattr(there, one.name, print))]
    above = {one.__name__ for one in there.__mro__}
    return [f"{stub.name}.{name}" for name in wrong] + [base.id for base in stub.bases if base.id not in above]


def wrong_stub(module):
    """What is wrong with the stub of a module: it has the names that the module gives, and no others, in the same form."""
    with open(module.__file__ + "i", encoding="utf-8") as text:
        body = ast.parse(text.read()).body
    classes = {one.name: one for one in body if isinstance(one, ast.ClassDef)}
    functions = {one.name: one for one in body if isinstance(one, ast.FunctionDef)}
    again = {one.asname for line in body if isinstance(line, ast.ImportFrom) for one in line.names if one.asname}
    names = next(ast.literal_eval(one.value) for one in body if isinstance(one, ast.Assign) and one.targets[0].id == "__all__")
    wrong = sorted(set(names) ^ set(module.__all__) | set(names) ^ (set(classes) | set(functions) | again))
    for name, stub in classes.items():
        wrong += wrong_in_class(stub, getattr(module, name))
    return wrong + [name for name, one in functions.items() if parameters(one.args) != parameters_there(getattr(module, name))]
