"""Commands that are printed for a further registry have its name."""

import io
import unittest

import support  # noqa: F401  (it names the folder of the modules)

from avroreg_admin.output import Output, of_registry


class NameCase(unittest.TestCase):
    def test_each_command_gets_the_name(self):
        for text, right in (
            ("avroreg-admin restore --fullest", "avroreg-admin restore --registry orders --fullest"),
            ("avroreg-admin lost-ids --count 3", "avroreg-admin lost-ids --registry orders --count 3"),
            ("x has 3: avroreg-admin restore, or avroreg-admin backup", "x has 3: avroreg-admin restore --registry orders, or avroreg-admin backup --registry orders"),
            ("avroreg-admin restore --registry orders", "avroreg-admin restore --registry orders"),
            ("avroreg-admin: an error", "avroreg-admin: an error"),
            ("systemctl start avroreg", "systemctl start avroreg"),
        ):
            self.assertEqual(of_registry(text, "orders"), right)
            self.assertEqual(of_registry(text, ""), text)

    def test_the_output_of_a_command(self):
        stream = io.StringIO()
        output = Output(stream)
        output.registry = "orders"
        output.next("avroreg-admin continue")
        output.warn("its log is invalid\navroreg-admin rescue")
        self.assertEqual(stream.getvalue(), "\n".join(
            ("next  avroreg-admin continue --registry orders", "warn  its log is invalid", "      avroreg-admin rescue --registry orders", "")))


if __name__ == "__main__":
    unittest.main()
