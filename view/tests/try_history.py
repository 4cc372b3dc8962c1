"""Assertions of the module of a policy's history."""
import unittest

from history import History, Numbered, domains_of, edited_lines
from policies import read_domains, read_groups
from runs import Step
from texts import Stop


class Opening:
    """A policy as it is printed before a play."""

    def __init__(self, domains, groups=""):
        self.domains = read_domains(domains)
        self.groups = read_groups(groups)


def edit(editor, file, line):
    """The step of an editor's line that was done."""
    return Step("done", "edit", [editor, file, *line.split(" ")])


def history(steps, domains="<kernel>\nuse_profile 1\n", groups=""):
    """What follows an opening by these steps, whose lines have their normal form."""
    normal = {line: line for line in edited_lines(steps)}
    return History(domains_of(domains), Opening(domains, groups), steps, normal)


class Written(unittest.TestCase):
    """Domains as somebody wrote them."""

    def names(self, text):
        return [domain.name for domain in domains_of(text).live_domains()]

    def test_a_name_makes_a_domain_once(self):
        self.assertEqual(self.names("<kernel> /b\n<kernel> /a\n<kernel>  /b\n"),
                         ["<kernel>", "<kernel> /b", "<kernel> /a"])

    def test_a_deleted_domain_is_made_anew_with_another_number(self):
        domains = domains_of("<kernel> /a\n<kernel> /b\ndelete <kernel> /a\n<kernel> /a\n")
        self.assertEqual(domains.live, {"<kernel>": 0, "<kernel> /b": 2, "<kernel> /a": 3})
        self.assertEqual(domains.name(1), "<kernel> /a")
        self.assertRaises(Stop, domains.name, 4)

    def test_settings_are_those_of_the_chosen_domain(self):
        kernel, other = domains_of(
            "<kernel> /a\nuse_profile 3\nuse_group 1\nuse_group 2\ndelete use_group 1\n"
            "select <kernel>\nuse_profile 2\nselect <kernel> /none\nuse_profile 9\n").all
        self.assertEqual((kernel.profile, kernel.groups), ("2", set()))
        self.assertEqual((other.profile, other.groups), ("3", {"2"}))


class Versions(unittest.TestCase):
    """The policy at each version of a run."""

    def test_learned_lines_join(self):
        played = history([Step("added", "learn", ["0", "file", "read", "/a"]),
                          Step("there", "learn", ["0", "file", "read", "/b"]),
                          Step("added", "learn", ["0", "file", "write", "/a"])])
        played.advance(1)
        self.assertEqual(played.entry(0, "entry:0").line(), "file read /a")
        played.finish()
        self.assertEqual(played.entry(0, "entry:0").line(), "file read/write /a")
        self.assertRaises(Stop, played.entry, 0, "entry:1")
        self.assertIsNone(played.entry(0, "none"))

    def test_a_made_domain_has_its_parents_profile_and_groups(self):
        played = history([Step("new:1", "make", ["0", "<kernel>", "/a"]),
                          edit("0", "domain_policy", "select <kernel> /a"),
                          edit("0", "domain_policy", "use_profile 2")],
                         "<kernel>\nuse_profile 1\nuse_group 7\n")
        played.advance(1)
        self.assertEqual((played.domain("1").profile, played.domain("1").groups), ("1", {"7"}))
        played.finish()
        self.assertEqual([played.domain(it).profile for it in "01"], ["1", "2"])

    def test_each_editor_has_a_cursor(self):
        played = history([edit("0", "domain_policy", "<kernel> /a"),
                          edit("1", "domain_policy", "select <kernel>"),
                          edit("0", "domain_policy", "file read /0"),
                          edit("1", "domain_policy", "file read /1"),
                          edit("1", "domain_policy", "delete file read /1")])
        played.advance(4)
        self.assertEqual([played.domain(it).entries.lines() for it in "01"],
                         [["file read /1"], ["file read /0"]])
        played.finish()
        self.assertEqual(played.domain("0").entries.lines(), [])

    def test_a_line_without_a_chosen_domain_is_of_other_files(self):
        played = Numbered(domains_of("<kernel>\n"), [edit("0", "domain_policy", "use_profile 1")])
        self.assertRaises(Stop, played.finish)

    def test_steps_that_did_nothing(self):
        played = history([Step("bad:keyword", "edit", ["0", "domain_policy", "fil", "read", "/a"]),
                          edit("0", "profile", "1-COMMENT=x")])
        played.finish()
        self.assertTrue(played.is_end(read_domains("<kernel>\nuse_profile 1\n"), {}))
        self.assertFalse(played.is_end(read_domains("<kernel>\nuse_profile 2\n"), {}))

    def test_groups_of_namespaces(self):
        played = history([edit("0", "exception_policy", "acl_group 1 file read /a"),
                          edit("0", "exception_policy", "</x> acl_group 1 file read /b"),
                          edit("0", "exception_policy", "delete <kernel> acl_group 1 file read /g"),
                          edit("0", "exception_policy", "path_group G /c")],
                         groups="<kernel> acl_group 1 file read /g\n")
        played.finish()
        self.assertEqual(played.entry(0, "group:1:0").line(), "file read /a")
        end = read_groups("<kernel> acl_group 1 file read /a\n</x> acl_group 1 file read /b\n")
        self.assertTrue(played.is_end(read_domains("<kernel>\nuse_profile 1\n"), end))

    def test_lines_of_editors_in_their_order(self):
        steps = [edit("0", "domain_policy", "delete file read /a"),
                 edit("0", "domain_policy", "use_profile 1"),
                 edit("0", "exception_policy", "</x> acl_group 1 misc env A"),
                 edit("0", "exception_policy", "path_group G /c"),
                 edit("0", "profile", "1-COMMENT=file read /z"),
                 edit("0", "domain_policy", "file read /a")]
        self.assertEqual(edited_lines(steps), ["file read /a", "misc env A"])
