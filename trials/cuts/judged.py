"""What is found of a vault on what a cut left of its disk."""

from cuts.disks import beside, mounted
from kills import files
from kills.asked import Run
from kills.judged import Judge
from shared import rows


class States:
    """Judges states of disks, in a folder of its own."""

    def __init__(self, program, place, system, tally):
        self.program, self.place, self.system, self.tally = program, place, system, tally
        self.image, self.folder = place / "state.img", beside(place, "state")
        self.many = self.faulty = 0

    def judge(self, story, at, image, random, name):
        """Judges one state of a case, whose power was cut before the event of this place."""
        steps, before = story.go_to(at), self.tally.failed
        image.write(self.image)
        self.many += 1
        judge = Judge(self.tally, name)
        judge.name = name
        self.judge_mounted(story, at, judge, steps, random)
        if self.tally.failed > before:
            self.faulty += 1

    def judge_mounted(self, story, at, judge, steps, random):
        """The same, on its file system."""
        with mounted(self.system, self.image, self.folder) as mount:
            after = f" after {mount.mended}" if mount.mended else ""
            judge.check(mount.fault, f"{self.system.name}: mounted{after}")
            path = self.folder / "vault" / story.name
            if mount.fault:
                return
            if story.kind == "made":
                self.judge_made(story, at, judge, path)
            else:
                self.judge_rows(story, at, judge, path, steps, random)

    def settled(self, story, image, steps, random):
        """A shop of which is known what a state of a case holds, which is only read."""
        image.write(self.image)
        with mounted(self.system, self.image, self.folder) as mount:
            shop = story.shop_of(self.folder / "vault" / story.name, random)
            undecided = [command for step in steps for command in step.commands]
            moments = sorted({moment for step in steps for moment in step.moments})
            carried = shop.known.settle(undecided, moments, rows.read(shop.path)[1])
            fault = mount.fault or ("rows differ" if carried is None else "")
        if fault:
            raise SystemExit(f"a state that is opened again: {fault}\n0 passed, 1 failed")
        return shop

    def judge_made(self, story, at, judge, path):
        """A file whose first command was cut off."""
        ended = not story.steps
        faults = files.judge_made(self.program, path, ended)
        judge.check("; ".join(faults), f"made: {'there' if ended else 'empty, or there'}")

    def judge_rows(self, story, at, judge, path, steps, random):
        """A file that was there: its rows, its check, and what is asked again."""
        shop, run = story.shop_of(path, random), Run(story.kind)
        run.undecided = [command for step in steps for command in step.commands]
        run.moments = sorted({moment for step in steps for moment in step.moments})
        run.most = 1 if story.one else None
        run.least = story.version if story.steps else 4
        if story.again:
            run.again = lambda: story.again(shop)
        judge.judge_rows(shop, run)
