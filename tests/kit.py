"""The tools of the Rattle kit."""
import os
import subprocess


def tool(name):
    """The path of a tool, such as the compiler."""
    page = subprocess.run(['rt', 'doc'], stdout=subprocess.PIPE, check=True).stdout.decode().strip()
    return os.path.join(os.path.dirname(page), 'toolchain', 'bin', name)
