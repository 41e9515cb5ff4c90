"""What a generator makes is committed: it is written here or, with --check, compared with what is there."""
import pathlib

ROOT = pathlib.Path(__file__).resolve().parent.parent


def differences(files, folders):
    """The paths whose file is not what `files` has for them, and those of other files in the folders."""
    present = {str(file.relative_to(ROOT)) for folder in folders for file in (ROOT / folder).rglob('*') if file.is_file()}
    return sorted(path for path in present | set(files) if committed(path) != files.get(path))


def committed(path):
    file = ROOT / path
    return file.read_text(encoding='utf8') if file.is_file() else None


def put(files, folders=(), check=False):
    """Makes the files, a text by its path, what the repository has of them; the folders hold no others."""
    wrong = differences(files, folders)
    if check and wrong:
        raise SystemExit('\n'.join('%s: not as generated' % path for path in wrong))
    for path in wrong:
        file = ROOT / path
        if path in files:
            file.parent.mkdir(parents=True, exist_ok=True)
            file.write_text(files[path], encoding='utf8')
        else:
            file.unlink()
    print('%d files %s' % (len(files), 'are as generated' if check else 'generated, %d of them changed' % len(wrong)))
