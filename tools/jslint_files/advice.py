"""What a first run without settings is told: which `env` has the names that `no-undef` reports."""
import re

# Names that tell an environment.
TELLING = {
    'browser': ('document', 'localStorage', 'navigator', 'window'),
    'node': ('Buffer', '__dirname', '__filename', 'exports', 'module', 'process', 'require'),
}
NAMES = rf"^\d+:\d+ no-undef '({'|'.join(it for names in TELLING.values() for it in names)})' is not defined$"


class Advice:
    """The names that were reported in scripts without settings."""

    def __init__(self):
        self.names = set()

    def add(self, answer):
        if 'no-undef' in answer:
            self.names.update(re.findall(NAMES, answer, re.M))

    def told(self, is_project):
        """A line, or nothing."""
        found = [it for it, names in TELLING.items() if self.names.intersection(names)]
        if not found:
            return ''
        env, names = ', '.join(f'"{it}"' for it in found), ', '.join(f"'{it}'" for it in sorted(self.names))
        where = 'jslint.toml' if is_project else 'settings (--settings, or jslint.toml with --project)'
        return f'jslint-files: not defined without settings: {names}; perhaps env = [{env}] in {where}\n'
