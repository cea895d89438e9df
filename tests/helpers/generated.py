"""The files in the repository that a generator of tests/generators writes."""

from paths import root


def stale(folder, files):
    """A line for each file of a folder that is not what its generator writes now."""
    return [f"{(folder / name).relative_to(root)} is not what tests/generators/write writes"
            for name, content in files.items() if not (folder / name).is_file() or (folder / name).read_bytes() != content]
