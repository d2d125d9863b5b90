"""`jslint-files`: what surrounds the proved calls when many scripts are checked or rewritten. Nothing here is proved. It may leave an answer out or show it
elsewhere, it never makes one up, and what it writes over a script is what a proved call answered."""
