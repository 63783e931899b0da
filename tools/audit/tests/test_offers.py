"""Types and what a module offers: which type is asked about, what is called, and with which values."""

from __future__ import annotations

import unittest
from typing import Any

from tools.audit.haskell_types import INT, UNIT, NoValue, Type, bare, is_shown, read_type, spelled, value
from tools.audit.offers import NothingToAsk, read_offer
from tools.audit.pairs import is_taken_back, named_pairs

UNIT_SHAPE, INT_SHAPE = ["constructor", "()"], ["constructor", "Int"]
LOCK = ["constructor", "Lock"]


def io(shape: object) -> list[object]:
    return ["constructor", "IO", shape]


def function(*shapes: object) -> object:
    first, *rest = shapes
    return ["function", first, function(*rest)] if rest else first


def module(*exports: tuple[str, object], comments: tuple[str, ...] = ()) -> dict[str, Any]:
    types = [{"name": "Lock"}, {"name": "Box"}]
    return {"exports": [*types, *({"name": name, "file": "a/Lock.hs", "line": 7, "type": shape} for name, shape in exports)], "comments": list(comments)}


class Values(unittest.TestCase):
    def test_an_action_gives_on_what_it_gets(self) -> None:
        action = Type("constructor", "IO", (Type("constructor", "(,)", (INT, UNIT)),))
        self.assertEqual(value(Type("function", "", (INT, action))), "(\\a -> return ((a + 1), ()))")

    def test_a_pure_function_gives_a_constant(self) -> None:
        self.assertEqual(value(Type("function", "", (INT, INT))), "(\\a -> 1)")

    def test_an_action_may_throw(self) -> None:
        self.assertEqual(value(Type("constructor", "IO", (UNIT,)), throws=True), '(throwIO (ErrorCall "thrown"))')

    def test_of_some_types_there_is_no_value(self) -> None:
        for kind in (Type("constructor", "ThreadId"), Type("variable", "a"), Type("other", "forall a. a")):
            with self.assertRaises(NoValue):
                value(kind)

    def test_only_parentheses_round_the_whole_go(self) -> None:
        self.assertEqual([bare("(a b)"), bare("(a) (b)"), bare("()"), bare("(1, 2)")], ["a b", "(a) (b)", "()", "(1, 2)"])

    def test_classes_are_those_of_their_variables(self) -> None:
        kind, classes = read_type(["classes", [["constructor", "Integral", ["variable", "i"]]], function(["variable", "i"], io(["variable", "i"]))])
        self.assertEqual(classes, {"i": {"Integral"}})
        self.assertEqual(kind.arguments()[0], (Type("variable", "i"),))

    def test_types_are_written_as_one_does(self) -> None:
        kind = Type("constructor", "Box", (Type("constructor", "[]", (INT,)), Type("constructor", "(,)", (INT, UNIT))))
        self.assertEqual(spelled(kind, {"Box": "M.Box"}), "(M.Box [Int] (Int, ()))")
        self.assertTrue(is_shown(Type("constructor", "Maybe", (UNIT,))))
        self.assertFalse(is_shown(Type("constructor", "Maybe", (kind,))))


class Offers(unittest.TestCase):
    def test_makers_and_operations(self) -> None:
        offer = read_offer("Lock", module(
            ("new", io(LOCK)), ("sized", function(INT_SHAPE, io(LOCK))), ("acquire", function(LOCK, io(UNIT_SHAPE))),
            ("with", function(LOCK, io(["variable", "a"]), io(["variable", "a"]))), ("try", function(LOCK, io(["constructor", "Bool"]))),
            ("swap", function(LOCK, LOCK, io(UNIT_SHAPE))), ("size", function(LOCK, INT_SHAPE)), ("copy", function(LOCK, io(LOCK)))))
        self.assertEqual([it.name for it in offer.makers], ["new", "sized 1", "sized 0"])
        self.assertEqual([it.call for it in offer.operations], ["M.acquire x", "M.with x (return ())", "M.try x"])
        self.assertEqual([it.may_decline for it in offer.operations], [False, False, True])
        self.assertEqual([it.throwing != "" for it in offer.operations], [False, True, False])
        self.assertEqual([name for name, _ in offer.left_out], ["swap", "size", "copy"])
        self.assertEqual(offer.operations[0].place.text(), "Lock.hs:7")

    def test_the_type_that_most_functions_take(self) -> None:
        box = ["constructor", "Box", ["variable", "a"]]
        offer = read_offer("Lock", module(("new", io(LOCK)), ("box", function(["variable", "a"], io(box))), ("put", function(box, ["variable", "a"], io(UNIT_SHAPE))),
                                          ("get", function(box, io(["variable", "a"]))), ("acquire", function(LOCK, io(UNIT_SHAPE)))))
        self.assertEqual((offer.type_name, offer.type_text), ("Box", "(M.Box Int)"))
        self.assertEqual([it.call for it in offer.makers], ["(M.box 1 :: IO (M.Box Int))", "(M.box 0 :: IO (M.Box Int))"])

    def test_a_monad_below_a_class_is_io(self) -> None:
        def applied(shape: object) -> list[object]:
            return ["applied", ["variable", "m"], shape]

        shape = ["classes", [["constructor", "MonadIO", ["variable", "m"]]], function(LOCK, applied(UNIT_SHAPE))]
        offer = read_offer("Lock", module(("new", io(LOCK)), ("acquire", shape)))
        self.assertEqual([it.name for it in offer.operations], ["acquire"])

    def test_comments_name_pairs_and_leave_out(self) -> None:
        exports = (("new", io(LOCK)), ("grab", function(LOCK, io(UNIT_SHAPE))), ("drop", function(LOCK, io(UNIT_SHAPE))), ("look", function(LOCK, io(UNIT_SHAPE))))
        offer = read_offer("Lock", module(*exports, comments=("grab; drop", "skip look")))
        self.assertEqual((offer.pairs, [it.name for it in offer.operations]), ([("grab", "drop")], ["grab", "drop"]))
        for comment in ("grab drop", "grab; nothing"):
            with self.assertRaises(NothingToAsk):
                read_offer("Lock", module(*exports, comments=(comment,)))

    def test_nothing_to_ask(self) -> None:
        with self.assertRaises(NothingToAsk):
            read_offer("Lock", module(("acquire", function(LOCK, io(UNIT_SHAPE)))))


class Pairs(unittest.TestCase):
    def test_names_that_take_each_other_back(self) -> None:
        for first, second in (("acquire", "release"), ("acquireRead", "releaseRead"), ("waitQSem", "signalQSem"), ("lock", "unlock"), ("take_it", "put_it")):
            self.assertTrue(is_taken_back(first, second), first)
        for first, second in (("tryAcquire", "release"), ("acquireRead", "releaseWrite"), ("readSV", "writeSV"), ("release", "acquire"), ("wait", "wait")):
            self.assertFalse(is_taken_back(first, second), first)

    def test_what_is_said_comes_in_place_of_names(self) -> None:
        names = ["acquire", "release", "drop"]
        self.assertEqual(named_pairs(names, []), [(0, 1)])
        self.assertEqual(named_pairs(names, [("acquire", "drop")]), [(0, 2)])


if __name__ == "__main__":
    unittest.main()
