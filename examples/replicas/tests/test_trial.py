"""The checks of the trial: they detect the errors that they must detect."""
import unittest

from relay import messages
from trial.clients import Write
from trial.compare import out_of_order
from trial.machine import Machine
from trial.probes import Sample, healthy_spans, majority_spans
from trial.probes import longest_gap as longest_healthy_gap
from trial.report import Fault, longest_gap


def write(name: str, began: float, answered: float) -> Write:
    return Write("PUT", f"/config/{name}", b"{}", f"key-{name}", began=began, answered=answered)


class Order(unittest.TestCase):
    def count(self, log: str, *writes: Write) -> int:
        by_name = {it.target[-1]: it.message() for it in writes}
        return out_of_order([by_name[it] for it in log], list(writes))

    def test_writes_that_overlap_have_any_order(self) -> None:
        pair = (write("a", 1, 4), write("b", 3, 5))
        self.assertEqual((self.count("ab", *pair), self.count("ba", *pair)), (0, 0))

    def test_one_that_was_acknowledged_comes_before_one_that_begins_later(self) -> None:
        first, second, third = write("a", 1, 2), write("b", 3, 6), write("c", 4, 5)
        self.assertEqual([self.count(it, first, second, third) for it in ("abc", "acb", "bac", "bca", "aba")], [0, 0, 1, 1, 0])


class Gap(unittest.TestCase):
    def test_the_longest_time_and_its_faults(self) -> None:
        writes = [write(str(it), it, it) for it in (1, 2, 3, 9, 10)]
        faults = [Fault("kill all", ("n1",), False, 1, 1.5, 2), Fault("kill etcd", ("n1", "n3"), True, 2.5, 5, 6), Fault("cut", ("n2",), False, 8, 8.2, 9.5)]
        self.assertEqual(longest_gap(0, 11, faults, writes), "6.0 s (kill etcd, n1 and n3; cut, n2)")
        self.assertEqual(longest_gap(0, 30, faults, writes), "20.0 s (between faults)")


class Health(unittest.TestCase):
    def test_a_node_is_healthy_between_good_probes_without_a_fault(self) -> None:
        samples = [Sample(*it) for it in ((0, True), (1, True), (2, True), (3, False), (4, True), (5, True), (8.5, True), (9, True))]
        self.assertEqual(list(healthy_spans("n1", samples, [])), [(0, 1), (1, 2), (4, 5), (8.5, 9)])
        faults = [Fault("kill relay", ("n1",), False, 0.5, 0.7, 2), Fault("kill relay", ("n2",), False, 1, 9, 9)]
        self.assertEqual(list(healthy_spans("n1", samples, faults)), [(1, 2), (4, 5), (8.5, 9)])

    def test_a_majority(self) -> None:
        first, second, third = [(0.0, 1.0), (1.0, 2.0), (2.0, 3.0)], [(0.5, 1.5), (1.5, 4.0)], [(3.5, 5.0)]
        self.assertEqual(list(majority_spans([first, second, third])), [(0.5, 3), (3.5, 4)])

    def test_the_longest_healthy_time_without_a_write(self) -> None:
        spans = [(0.0, 10.0), (12.0, 30.0), (31.0, 35.0)]  # of them, 5 to 10 and 17 to 30 count
        for answered, gap in (([], 18), ([1, 2, 29.5], 17.5), ([7, 20, 29], 9), ([5.5, 29], 16.5), ([18, 40], 12)):
            self.assertEqual(longest_healthy_gap(spans, 0, answered, 36), gap)


class SecondRegistry(unittest.TestCase):
    def answers(self, *lines: tuple[str, str, str]) -> list[int]:
        machine = Machine()
        return [machine.answer(messages.message(line.encode(), key.encode(), body.encode()))[0] for line, key, body in lines]

    def test_a_retry_changes_nothing_and_gets_the_first_response(self) -> None:
        schema = '{"schema":"{\\"type\\":\\"record\\",\\"name\\":\\"R\\",\\"fields\\":[]}"}'
        register, delete = ("POST /subjects/s/versions", "k1", schema), ("DELETE /subjects/s", "k2", "")
        self.assertEqual(self.answers(register, delete, register, delete), [200] * 4)
        self.assertEqual(self.answers(register, delete, ("DELETE /subjects/s", "k3", ""), (*register[:1], "k2", schema)), [200, 200, 404, 422])
