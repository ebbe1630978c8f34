"""What files take of a disk."""
from arena_lab.hall import packing
from tests.support.output import InTemporary


class Packing(InTemporary):
    def test_files_are_counted_as_the_disk_counts(self) -> None:
        """A file takes whole blocks, and it and a folder take an inode."""
        for size, blocks in ((0, 1), (1, 2), (4_096, 2), (4_097, 3)):
            self.assertEqual(packing.on_disk(size), blocks * 4_096)
        for number in range(20):
            folder = self.folder / f"d{number}"
            folder.mkdir()
            (folder / "f").write_bytes(b"x")
        (self.folder / "link").symlink_to("/etc/passwd")
        self.assertEqual(packing.size_of(self.folder), (20 * 3 + 1) * 4_096)

    def test_no_files_of_a_size_take_more_than_the_most(self) -> None:
        for sizes in ([0], [1] * 100, [4_096, 4_097], [8_191, 0, 1]):
            exact = sum(map(packing.on_disk, sizes))
            bound = packing.most_on_disk(sum(sizes), len(sizes))
            self.assertLessEqual(exact, bound)
            self.assertLess(bound - exact, packing.BLOCK * len(sizes) + 1)
