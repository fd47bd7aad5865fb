"""The verdicts on the crates of a build: where each comes from, and what stands by it.

out/verdicts has a file for each crate. Its first line is KEPT, or the prover's last line where the build proved the
crate; the second is the sum of all that the proof read, as `rt ci` computes it, or, where the kit keeps nothing, as
kit.py does; then come the files that were made of the crate, each behind its sum (of a library that `rt ci` kept none:
it is taken anew by each build).
"""

import contextlib
import os

from kit import KIT, give, store, touched

KEPT = "kept by rt ci"


class Verdicts:
    """The verdicts on crates, which are asked for lowest first: in the sum of a crate are the libraries below it, as
    they stand. `own`: what a build makes of a crate that `rt ci` doesn't; of such a crate nothing kept is taken."""

    def __init__(self, top):
        self.top, self.folder, self.kept = top, f"{top}/out/verdicts", store()

    def read(self, crate):
        """The sum of all that the crate's proof reads, and what says whether a file of its own is touched later."""
        return self.kept.key(crate), touched(crate)

    def take(self, crate, read, own=()):
        """Takes what `rt ci` kept of the same, or what an earlier build made, and returns whether there was either."""
        if not own and give(self.kept, crate, read[0]):
            self.write(crate, read, KEPT, self.made(crate, own) if crate.is_program else ())
        elif not self.is_noted(crate, read, own):
            return False
        self.kept.is_built(crate)
        return True

    def waited(self, crate, read):
        """Waits while another run on this machine proves the same, at most an hour. Returns whether one did."""
        with self.kept.in_turn(crate, False, read[0]) as has_waited:
            return has_waited

    def note(self, crate, read, said, own=()):
        """Notes what the build made of a crate, and returns whether all that the proof read stands as it stood."""
        if self.read(crate) != read:
            return False
        self.kept.is_built(crate)
        self.write(crate, read, said, self.made(crate, own))
        return True

    def made(self, crate, own):
        """The files that were made of the crate, each behind its sum."""
        if crate.is_program:
            own = [f"{crate.folder}/out/{crate.name}"]
        elif not own:
            own = [f"{crate.folder}/out/{it}" for it in self.kept.made(crate, False)]
        return [f"{KIT.rtlib.sum_of(it)}  {os.path.relpath(it, self.top)}" for it in own]

    def is_noted(self, crate, read, own):
        """Whether an earlier build made of the same what stands there now."""
        said, *noted = (KIT.rtlib.text_of(f"{self.folder}/{crate.name}") or "").splitlines() or [""]
        return said.startswith("logic=proved ") and len(noted) > 1 and noted == [read[0], *self.made(crate, own)]

    def write(self, crate, read, said, made=()):
        with open(f"{self.folder}/{crate.name}", "w", encoding="utf-8") as file:
            file.writelines(f"{it}\n" for it in (said, read[0], *made))

    def drop(self, crate):
        """Drops the verdict on a crate that is proved anew."""
        with contextlib.suppress(FileNotFoundError):
            os.remove(f"{self.folder}/{crate.name}")

    def drop_others(self, names):
        """Drops the verdicts on crates that aren't among these."""
        os.makedirs(self.folder, exist_ok=True)
        for it in os.listdir(self.folder):
            if it not in names:
                os.remove(f"{self.folder}/{it}")

    def told(self):
        """The verdict on each crate."""
        names = sorted(os.listdir(self.folder))
        return {it: KIT.rtlib.text_of(f"{self.folder}/{it}").partition("\n")[0] for it in names}
