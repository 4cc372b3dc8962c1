"""Assertions of the module of policies."""
import unittest

from policies import Entries, permissions_of, read_domains, read_groups, without_conditions


class Lines(unittest.TestCase):
    """Lines in parts."""

    def test_permissions(self):
        self.assertEqual(permissions_of("file read/write /a"), ["read", "write"])
        self.assertEqual(permissions_of("network inet stream bind/listen 1.2.3.4 80"),
                         ["bind", "listen"])
        self.assertEqual(permissions_of("misc env PATH"), ["env"])
        self.assertEqual(permissions_of("task manual_domain_transition <kernel> /m"),
                         ["manual_domain_transition"])
        self.assertRaises(ValueError, permissions_of, "file raed /a")
        self.assertRaises(ValueError, permissions_of, "use_profile 1")

    def test_conditions(self):
        for line, bare in (
                ("file read /a task.uid=0 path1.uid!=1", "file read /a"),
                ("file read /task.uid=0", "file read /task.uid=0"),
                ("file mount any /mnt ext4 0x1 task.uid=0", "file mount any /mnt ext4 0x1"),
                ("network unix stream bind /s task.gid=1", "network unix stream bind /s"),
                ("network inet dgram send 1.2.3.4 80 task.gid=1",
                 "network inet dgram send 1.2.3.4 80"),
                ("file execute /a keep exec.argv[0]=\"a\"", "file execute /a keep"),
                ("file execute /a grant_log=no", "file execute /a"),
                ("misc env A task.uid=0", "misc env A")):
            self.assertEqual(without_conditions(line), bare)


class Joined(unittest.TestCase):
    """Lines that are added and removed."""

    def entries(self, *lines):
        made = Entries()
        for line in lines:
            made.add(line)
        return made

    def test_add(self):
        made = self.entries("file write /a", "file read /b", "file read /a")
        self.assertEqual(made.lines(), ["file read/write /a", "file read /b"])
        made.add("file read /a task.uid=0")
        self.assertEqual(made.lines()[2:], ["file read /a task.uid=0"])

    def test_permissions_are_printed_in_their_order(self):
        self.assertEqual(self.entries("file append/execute /a", "file read /a").lines(),
                         ["file execute/read/append /a"])

    def test_arguments_that_are_permissions(self):
        made = self.entries("file read read", "file write read")
        self.assertEqual(made.lines(), ["file read/write read"])

    def test_remove(self):
        made = self.entries("file read/write /a", "file read /b")
        made.remove("file read /a")
        self.assertEqual(made.lines(), ["file write /a", "file read /b"])
        made.remove("file write /a")
        made.remove("file write /a")
        made.remove("file read /b task.uid=0")
        self.assertEqual(made.lines(), ["file read /b"])
        made.add("file read /a")
        self.assertEqual(made.lines(), ["file read /b", "file read /a"])


class Printed(unittest.TestCase):
    """Policies that a play has stored."""

    def test_domains(self):
        first, second = read_domains("<kernel>\nuse_profile 1\nuse_group 0\nuse_group 2\n\n"
                                     "quota_exceeded\nfile read /a\n\n"
                                     "<kernel> /b\nuse_profile 0\n\n")
        self.assertEqual((first.name, first.profile, first.groups, first.flags),
                         ("<kernel>", "1", {"0", "2"}, ["quota_exceeded"]))
        self.assertEqual(first.entries.lines(), ["file read /a"])
        self.assertEqual((second.name, second.entries.lines()), ("<kernel> /b", []))

    def test_groups(self):
        groups = read_groups("<kernel> path_group G /a\n<kernel> acl_group 1 file read /a\n"
                             "</x> acl_group 1 file read /b\n<kernel> acl_group 1 file write /a\n")
        self.assertEqual({place: group.lines() for place, group in groups.items()},
                         {("<kernel>", "1"): ["file read/write /a"],
                          ("</x>", "1"): ["file read /b"]})
