"""The tests of ./r3 profile, which are in JavaScript: its numbers against those of r3, its formats, its lines, and its
page in browsers. They need Node.js 20 or later."""
import node_tests


def checks(group):
    node_tests.run(group, "profile.mjs", 20, "./r3 profile")
