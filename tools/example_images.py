"""Writes crates/dromajo/src/example_images.rt: the flat images of examples/ as arrays for the tests."""
import pathlib

TOP = pathlib.Path(__file__).resolve().parent.parent
NAMES = ["hello", "traps", "pages", "timer"]


def rows(data):
    for at in range(0, len(data), 16):
        yield "    " + " ".join(f"0x{b:02x}," for b in data[at:at + 16])


def main():
    parts = ["//! The flat images of examples/, as examples/build.sh makes them; tools/example_images.py writes this file."]
    for name in NAMES:
        data = (TOP / "examples" / f"{name}.bin").read_bytes()
        parts.append(f"pub(crate) const {name.upper()}: [u8; {len(data)}] = [\n" + "\n".join(rows(data)) + "\n];")
    path = TOP / "crates/dromajo/src/example_images.rt"
    path.write_text("\n\n".join(parts) + "\n")


if __name__ == "__main__":
    main()
