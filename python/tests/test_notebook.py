"""The notebook of examples/: run again, it says what it says."""
import copy
import os
from pathlib import Path
from typing import Any

import pytest

from conftest import EXAMPLES


def said(notebook: Any) -> list[Any]:
    """What the cells print, without pictures."""
    outputs = [output for cell in notebook.cells for output in cell.get("outputs", [])]
    return [output.get("text") or output["data"]["text/plain"] for output in outputs]


def test_the_notebook(monkeypatch: pytest.MonkeyPatch, tmp_path: Path) -> None:
    """From a C file to a leak, and to a yes: 140 pulses tell the secrets of the one module, none those of the other."""
    nbformat: Any = pytest.importorskip("nbformat")
    nbclient: Any = pytest.importorskip("nbclient")
    for name in ("ipykernel", "pandas", "matplotlib"):
        pytest.importorskip(name)
    monkeypatch.setenv("IPYTHONDIR", os.fspath(tmp_path))
    kept = nbformat.read(EXAMPLES / "notebook" / "leak.ipynb", as_version=4)
    again = copy.deepcopy(kept)
    nbclient.NotebookClient(again, timeout=120, resources={"metadata": {"path": str(EXAMPLES / "notebook")}}).execute()
    assert said(again) == said(kept)
    assert "140 of 140 pulses tell the secrets apart\n" in said(kept) and "yes\n" in "".join(said(kept))
