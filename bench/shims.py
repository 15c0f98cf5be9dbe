"""Libraries in C that stand before the machine's own calls in a run of a program."""
import os
import subprocess


def built(text, folder):
    """The path of the library of a text in C, which is built in a folder."""
    source, shim = os.path.join(folder, "shim.c"), os.path.join(folder, "shim.so")
    with open(source, "w") as file:
        file.write(text)
    subprocess.run(["cc", "-shared", "-fPIC", "-o", shim, source, "-ldl"], check=True)
    return shim
