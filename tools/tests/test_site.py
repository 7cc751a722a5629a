"""How tools/site makes its pages of those of the repository."""
import unittest

from scripts import root

import site_pages

TABLE = "<table>\n<thead>\n<tr>\n<th>Type &amp; more</th>\n<th>Bytes</th>\n</tr>\n</thead>\n<tbody>\n<tr>\n<td>a</td>\n<td>8</td>\n</tr>\n<tr>\n<td>b</td>\n<td>16</td>\n</tr>\n</tbody>\n</table>"


class TestSite(unittest.TestCase):
    def test_each_cell_has_the_head_of_its_column(self):
        text = site_pages.labelled(f"<p>{TABLE}</p>")
        self.assertEqual(text.count('<td data-head="Type &amp; more">'), 2)
        self.assertIn('<td data-head="Bytes">16</td>', text)

    def test_a_message_has_a_class_and_code_has_none(self):
        message = "<pre><span></span><code>error: a\n</code></pre>"
        code = '<pre><span></span><code><span class="k">fn</span> a</code></pre>'
        self.assertIn('<pre class="plain"><span></span><code>error: a', site_pages.labelled(message))
        self.assertEqual(site_pages.labelled(code), code)

    def test_a_link_to_a_source_leads_to_its_page(self):
        page = site_pages.page_of("docs/reference/A.md", "[`map.rt`](../../crates/elsa_maps/src/map/hashed.rt)")
        self.assertEqual(page, "[`map.rt`](../sources/elsa_maps-map-hashed.md)")

    def test_each_picture_of_a_page_is_on_the_site(self):
        files = {str(it.relative_to(root)) for it in site_pages.pictures()}
        self.assertIn("docs/internals/pictures/cell.svg", files)
        self.assertIn("bench/growth.svg", files)
        self.assertNotIn(None, site_pages.pictures().values())

    def test_names_of_menus_and_pages_are_seen_below_each_other(self):
        menus = [
            {"Home": [{"elsa": "index.md"}]},
            {"Guide": [{"Start": "a.md"}, "b.md"]},
            {"Reference": [{"A": "c.md"}]},
        ]
        self.assertEqual([*site_pages.names_of(menus)], ["Home", "elsa", "Guide", "Start", "Reference"])


if __name__ == "__main__":
    unittest.main()
