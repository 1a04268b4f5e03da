"""The numbers of faults against those of sm_node.h."""

import re
import unittest

from vamuretu import NodeFault

from .support import TOP


class Numbers(unittest.TestCase):
    def test_header(self):
        text = (TOP / "embed" / "sm_node.h").read_text(encoding="ascii")
        inside = re.search(r"enum sm_node_fault \{(.*?)\};", text, re.DOTALL)[1]
        numbers, number = {}, 0
        for item in re.sub(r"/\*.*?\*/", "", inside, flags=re.DOTALL).split(","):
            name, _, given = item.strip().partition(" = ")
            number = int(given) if given else number + 1
            numbers[name[3:]] = number
        self.assertEqual(numbers, {it.name: it.value for it in NodeFault})

    def test_texts(self):
        text = (TOP / "embed" / "sm_node.h").read_text(encoding="ascii")
        texts = dict(re.findall(r'case SM_(\w+): return "(.*)";', text))
        self.assertEqual(texts, {it.name: it.text for it in NodeFault})
