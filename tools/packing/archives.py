"""Archives with the same bytes for the same files: nothing of the machine or of the hour is in them. Files are given by their
paths, each with its mode and its bytes."""
import gzip
import io
import lzma
import time
import zipfile

FOLDER, FILE = 0o755, 0o644
# The form of tar archives: blocks, and the most bytes of a path's end and of the folders before it.
BLOCK, RECORD, MOST_NAME, MOST_PREFIX = 512, 20 * 512, 100, 155
IS_FILE, IS_FOLDER = b'0', b'5'


def header(path, mode, size, day, kind):
    """The block before a file or a folder, in the form ustar. Python's own differs from version to version."""
    prefix, name = '', path
    while len(name) > MOST_NAME:
        folder, _, name = name.partition('/')
        prefix = f'{prefix}/{folder}' if prefix else folder
    if len(prefix) > MOST_PREFIX or not path.isascii():
        raise ValueError(f'the path {path} is too long for an archive, or is not ASCII')
    fields = ((name.encode(), MOST_NAME), (b'%07o' % mode, 8), (b'%07o' % 0, 8), (b'%07o' % 0, 8), (b'%011o' % size, 12), (b'%011o' % day, 12))
    begin = b''.join(value.ljust(length, b'\0') for value, length in fields)
    fields = ((b'', MOST_NAME), (b'ustar\x0000', 8), (b'root', 32), (b'root', 32), (b'%07o' % 0, 8), (b'%07o' % 0, 8), (prefix.encode(), BLOCK - 345))
    end = kind + b''.join(value.ljust(length, b'\0') for value, length in fields)
    return begin + b'%06o\0 ' % (sum(begin) + sum(end) + 8 * ord(' ')) + end


def folders_of(files):
    return sorted({'/'.join(path.split('/')[:count]) for path in files for count in range(1, path.count('/') + 1)})


def tar(files, prefix, day):
    """A tar archive, each folder before what is in it."""
    parts = [header(f'{prefix}{folder}/', FOLDER, 0, day, IS_FOLDER) for folder in folders_of(files)]
    for path in sorted(files):
        mode, data = files[path]
        parts += [header(prefix + path, mode, len(data), day, IS_FILE), data, bytes(-len(data) % BLOCK)]
    out = b''.join(parts) + bytes(2 * BLOCK)
    return out + bytes(-len(out) % RECORD)


def zipped(data):
    """The bytes as gzip packs them, with no name and no time."""
    out = io.BytesIO()
    with gzip.GzipFile('', 'wb', 9, out, 0) as packed:
        packed.write(data)
    return out.getvalue()


def tar_gz(files, prefix, day):
    return zipped(tar(files, prefix, day))


def tar_xz(files, prefix, day):
    return lzma.compress(tar(files, prefix, day), preset=9)


def ar(parts, day):
    """The archive that a Debian package is: named parts in their order."""
    out = b'!<arch>\n'
    for name, data in parts:
        out += f'{name:<16}{day:<12}{0:<6}{0:<6}{100644:<8}{len(data):<10}`\n'.encode() + data + b'\n' * (len(data) % 2)
    return out


def part_of_ar(data, wanted):
    """The part with this name, or nothing."""
    at = 8
    while at < len(data):
        name, size = data[at:at + 16].decode().strip(), int(data[at + 48:at + 58])
        if name == wanted:
            return data[at + 60:at + 60 + size]
        at += 60 + size + size % 2
    return b''


def zip_archive(files, day):
    out = io.BytesIO()
    with zipfile.ZipFile(out, 'w', zipfile.ZIP_DEFLATED, compresslevel=9) as archive:
        for path in sorted(files):
            mode, data = files[path]
            made = zipfile.ZipInfo(path, time.gmtime(day)[:6])
            made.compress_type, made.create_system, made.external_attr = zipfile.ZIP_DEFLATED, 3, (0o100000 | mode) << 16
            archive.writestr(made, data)
    return out.getvalue()
