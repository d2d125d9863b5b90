"""The files of the rules, rules/NAME.toml, and what tools/rules writes from them."""
