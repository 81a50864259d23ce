"""Which ids a restore uses up, by each source alone and by several."""

import unittest
from datetime import datetime

import support  # noqa: F401  (it names the folder of the modules)

from avroreg_admin import reserved_ids
from avroreg_admin.nginx_log import Since
from avroreg_admin.output import Stop
from avroreg_admin.reserved_ids import OldFile, Plan, Sources, Unknown, plan

SINCE = datetime.fromisoformat("2026-11-28T02:30:00+00:00")
BEFORE, AFTER = datetime.fromisoformat("2026-11-28T00:00:00+00:00"), datetime.fromisoformat("2026-11-28T03:00:00+00:00")


def schemas(count: int, name: str = "s") -> list[tuple[int, str]]:
    return [(number, f'"{name}{number}"') for number in range(1, count + 1)]


def log(registrations: int, first: datetime = BEFORE) -> Since:
    return Since(registrations, first=first, last=AFTER)


class PlanCase(unittest.TestCase):
    def test_a_whole_old_file_gives_its_schemas(self):
        made = plan(Sources(schemas(3), OldFile(schemas(5), True), SINCE, log(9)))
        self.assertEqual((made.first, made.last, made.schemas, made.ids_conflict), (4, 5, {4: '"s4"', 5: '"s5"'}, False))

    def test_a_whole_old_file_without_more_schemas_loses_no_id(self):
        self.assertEqual(plan(Sources(schemas(3), OldFile(schemas(3), True))).count, 0)

    def test_the_log_alone(self):
        made = plan(Sources(schemas(3), None, SINCE, log(4)))
        self.assertEqual((made.first, made.last, made.ids_conflict), (4, 7, False))

    def test_what_watch_saw_alone(self):
        made = plan(Sources(schemas(3), seen=40))
        self.assertEqual((made.last, made.ids_conflict), (1040, False))

    def test_the_greatest_of_all_sources_counts(self):
        self.assertEqual(plan(Sources(schemas(3), None, SINCE, log(4), seen=3)).last, 1003)
        self.assertEqual(plan(Sources(schemas(3), None, SINCE, log(4000), seen=3)).last, 4003)
        self.assertEqual(plan(Sources(schemas(3), None, SINCE, log(4), greatest=5000)).last, 6000)
        self.assertEqual(plan(Sources(schemas(3), None, SINCE, log(4), count=50)).last, 53)

    def test_a_number_alone_is_an_estimate(self):
        self.assertTrue(plan(Sources(schemas(3), None, count=50)).ids_conflict)

    def test_a_person_may_say_that_nothing_is_lost(self):
        """A file from another place is put in the place of an empty registry."""
        made = plan(Sources(schemas(3), OldFile([], True), seen=3, count=0))
        self.assertEqual((made.count, made.ids_conflict), (0, False))

    def test_an_id_from_before_the_backup_tells_nothing(self):
        for source in ({"seen": 2}, {"greatest": 2}, {"seen": 0}):
            with self.assertRaises(Unknown):
                plan(Sources(schemas(3), **source))
        self.assertEqual(plan(Sources(schemas(3), None, SINCE, log(4), seen=2)).last, 7)

    def test_without_a_source_nothing_is_planned(self):
        with self.assertRaises(Unknown):
            plan(Sources(schemas(3)))
        with self.assertRaises(Unknown):
            plan(Sources(schemas(3), None, SINCE, log(4, first=AFTER)))

    def test_an_old_file_that_is_not_whole_is_not_enough(self):
        with self.assertRaises(Unknown):
            plan(Sources(schemas(3), OldFile(schemas(5), False)))
        made = plan(Sources(schemas(3), OldFile(schemas(5), False), SINCE, log(1)))
        self.assertEqual((made.last, made.schemas), (5, {4: '"s4"', 5: '"s5"'}))
        self.assertEqual(plan(Sources(schemas(3), OldFile(schemas(5), False), SINCE, log(9))).last, 12)

    def test_an_old_file_that_is_older_than_the_backup_is_not_enough(self):
        with self.assertRaises(Unknown):
            plan(Sources(schemas(3), OldFile(schemas(2), True)))

    def test_an_old_file_with_fewer_ids_than_watch_saw_is_not_enough(self):
        self.assertEqual(plan(Sources(schemas(3), OldFile(schemas(5), True), seen=9)).last, 1009)

    def test_a_file_of_another_registry_conflicts(self):
        with self.assertRaises(Unknown):
            plan(Sources(schemas(3), OldFile(schemas(5, "x"), True)))
        made = plan(Sources(schemas(3), OldFile(schemas(5, "x"), True), SINCE, log(1)))
        self.assertEqual((made.last, made.schemas, made.ids_conflict), (5, {}, True))

    def test_more_ids_of_the_registry_itself_conflict_with_nothing(self):
        made = plan(Sources(schemas(3), OldFile(schemas(3), True), count=7))
        self.assertEqual((made.first, made.last, made.ids_conflict), (4, 10, False))

    def test_a_number_that_is_no_id(self):
        with self.assertRaises(Unknown):
            plan(Sources(schemas(3), None, count=1 << 31))


class ReserveCase(unittest.TestCase):
    def test_no_user_s_subject_is_taken(self):
        self.assertEqual(reserved_ids.free_subject({"orders"}), "avroreg-lost-ids")
        self.assertEqual(reserved_ids.free_subject({"avroreg-lost-ids"}), "avroreg-lost-ids-2")
        self.assertEqual(reserved_ids.free_subject({"avroreg-lost-ids", "avroreg-lost-ids-2", "x"}), "avroreg-lost-ids-3")

    def test_placeholders_have_fixed_names_that_no_schema_has(self):
        text = '{"name":"avroreg.lost_813","size":1,"type":"fixed"}'
        self.assertEqual(reserved_ids.placeholder(813, set()), text)
        self.assertEqual(reserved_ids.placeholder(813, {text}), '{"name":"avroreg.lost_813_","size":1,"type":"fixed"}')

    def test_a_refused_schema_becomes_a_placeholder(self):
        planned = Plan(4, 6, {4: '"s4"', 5: '"s5"'})
        self.assertEqual(reserved_ids.texts_of(planned, {5}, []), ['"s4"', reserved_ids.placeholder(5, set()), reserved_ids.placeholder(6, set())])

    def test_another_id_than_planned_ends_it(self):
        good = [[200, {}], [200, {}], [200, {"id": 4}], [200, {"id": 5}], [200, [1, 2]]]
        reserved_ids.check_replies(Plan(4, 5), good)
        for at, reply in ((2, [200, {"id": 5}]), (3, [200, {"id": 4}]), (3, [201, {"id": 5}]), (0, [422, {}]), (1, [500, {}]), (4, [404, {}])):
            with self.assertRaises(Stop):
                reserved_ids.check_replies(Plan(4, 5), [*good[:at], reply, *good[at + 1:]])


if __name__ == "__main__":
    unittest.main()
