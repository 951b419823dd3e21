"""Has pip make the wheel of a checkout: `pip wheel .` and `pip install .` call `package`, which proves and builds what is not
built yet. With `--config-settings as-built=1` it takes what stands there."""
import os
import shutil
import subprocess
import tempfile

TOP = os.path.dirname(os.path.dirname(os.path.abspath(__file__)))


def build_wheel(wheel_directory, config_settings=None, metadata_directory=None):
    words = ["--as-built"] if (config_settings or {}).get("as-built") else []
    with tempfile.TemporaryDirectory() as out:
        subprocess.run([f"{TOP}/package", *words, "--out", out], check=True)
        name = next(it for it in os.listdir(out) if it.endswith(".whl"))
        shutil.copyfile(f"{out}/{name}", os.path.join(wheel_directory, name))
    return name
