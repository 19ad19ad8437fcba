"""What the tests of scripts share."""

import subprocess


def run(*command, **options):
    """Status, standard output and standard error."""
    done = subprocess.run(command, capture_output=True, check=False, **options)
    return done.returncode, done.stdout.decode(), done.stderr.decode()
