"""The files of crates/rows are those that ci/rows.py writes."""

import pytest

from rows import CRATE, files


@pytest.mark.parametrize(("name", "text"), files().items(), ids=files())
def test_rows(name, text):
    assert (CRATE / name).read_text() == text, f"crates/rows/{name} is not what ci/rows.py writes"
