"""Where the tests find examples."""
from pathlib import Path

EXAMPLES = Path(__file__).resolve().parents[2] / "examples"
