"""Makes the wheel that pip installs, by the standard library alone: pyproject.toml names this file as what builds.

The name, the version and the description are those of pyproject.toml.
"""
from __future__ import annotations

import base64
import hashlib
import os
import re
import zipfile
from typing import Any, Dict, Optional

HERE = os.path.dirname(os.path.abspath(__file__))
MODULES = ['asprop.py', 'asprop_study.py']


def build_wheel(wheel_directory: str, config_settings: Optional[Dict[str, Any]] = None,
                metadata_directory: Optional[str] = None) -> str:
    """Writes the wheel into the folder, and gives its name."""
    project = {}
    for name in ('name', 'version', 'description', 'requires-python'):
        with open(os.path.join(HERE, 'pyproject.toml'), encoding='utf8') as file:
            project[name] = re.findall('^%s = "(.*)"$' % name, file.read(), re.MULTILINE)[0]
    stem = '%s-%s' % (project['name'], project['version'])
    contents = {}
    for module in MODULES:
        with open(os.path.join(HERE, module), 'rb') as source:
            contents[module] = source.read()
    contents[stem + '.dist-info/METADATA'] = (
        'Metadata-Version: 2.1\nName: %s\nVersion: %s\nSummary: %s\nRequires-Python: %s\n' % tuple(project.values())).encode()
    contents[stem + '.dist-info/WHEEL'] = b'Wheel-Version: 1.0\nGenerator: asprop\nRoot-Is-Purelib: true\nTag: py3-none-any\n'
    record = ''
    for name, content in contents.items():
        digest = base64.urlsafe_b64encode(hashlib.sha256(content).digest()).rstrip(b'=').decode()
        record += '%s,sha256=%s,%d\n' % (name, digest, len(content))
    contents[stem + '.dist-info/RECORD'] = (record + stem + '.dist-info/RECORD,,\n').encode()
    wheel = stem + '-py3-none-any.whl'
    with zipfile.ZipFile(os.path.join(wheel_directory, wheel), 'w', zipfile.ZIP_DEFLATED) as file:
        for name, content in contents.items():
            file.writestr(name, content)
    return wheel
