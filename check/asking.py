"""What is asked of a client, and what of it was wrong."""
from check.layout import Layout

MIB = 1 << 20


def say(held, what, why=""):
    print(("ok    " if held else "WRONG ") + what + ("" if held or not why else f": {why}"), flush=True)
    if not held:
        say.wrong += 1
    return held


say.wrong = 0


def is_there(kind):
    lacks = kind.lacks()
    if lacks:
        print(f"--    {kind.name}: left out, for want of {', '.join(lacks)}")
    return not lacks


class Check:
    """What is asked of a client, one after the other."""

    # what a client says that has neither name nor token
    refused_as_nobody = "unauthorized", "token required", "401", "password unknown"
    # and one whose layer is too large (the connection ends with the reply: who still writes may find that first,
    # and look at no reply)
    refused_as_large = "64 MiB", "413", "connection reset by peer", "broken pipe", "closed pipe"

    def __init__(self, front, client, layouts):
        self.front, self.client = front, client
        # an image of its own, so that none of its blobs is there before
        self.layouts = {**layouts, "image": Layout(f"{front.room}/image-{client.name}", client.name, MIB)}

    def say(self, held, what, why=""):
        return say(held, f"{self.client.name}: {what}", why)

    def works(self, ran, what):
        return self.say(ran.returncode == 0, what, ran.text[-600:])

    def is_refused(self, ran, what, *words):
        said = ran.returncode != 0 and any(word in ran.text for word in words)
        self.say(said, f"{what} is refused, and says why", f"status {ran.returncode}")
        print("        " + (ran.text.splitlines() or [""])[-1][-300:])

    def push_and_pull(self):
        image, where = self.layouts["image"], f"team/app:{self.client.name}"
        self.works(self.client.push(image, where), "push")
        there = self.front.digest(*where.split(":"))
        if self.client.packs_again:
            self.say(self.client.pushed() == there, "the digest that it tells is the registry's", f"{self.client.pushed()} {there}")
            self.say(self.front.document(*where.split(":"))["config"]["digest"] == image.config, "the config that it pushed is the one that was made")
            self.works(self.client.pull(where), "pull")
            self.say("sha256:" + self.client.image[-64:] == image.config, "what it pulled is the image that was made", self.client.image)
        else:
            self.say(there == image.digest, "the manifest that it pushed is the one that was made")
            self.works(self.client.pull(where), "pull")
            self.say(self.client.pulled() == image.digest, "what it pulled is what was made", self.client.pulled())

    def index(self):
        """Two platforms, and each image of them is there."""
        layout, where = self.layouts["two"], f"team/app:{self.client.name}-two"
        self.works(self.client.push_index(layout, where), "push of an index of two platforms")
        listed = self.front.document(*where.split(":")).get("manifests", [])
        found = sorted(it["platform"]["architecture"] for it in listed)
        self.say(found == ["amd64", "arm64"], "the index has both", str(found))
        self.say(listed != [] and all(self.front.read(f"/v2/team/app/manifests/{it['digest']}")[0] == 200 for it in listed), "and so has the registry")

    def mount(self):
        """The same image to another repository: its blobs are mounted, not sent."""
        before = self.front.asked(self.front.mount)
        ran = self.client.pass_on(self.layouts["image"], f"team/app:{self.client.name}", f"team/lib:{self.client.name}")
        if ran is None:
            print(f"--    {self.client.name} does not ask for a mount")
            return
        self.works(ran, "push to another repository")
        self.say(self.front.was_asked(before, self.front.mount), "which mounts blobs")

    def refusals(self):
        own, name = self.layouts["image"], self.client.name
        self.is_refused(self.client.pull(f"team/app:{name}", "u2"), "a stranger's pull", "denied", "403", "orbidden")
        self.is_refused(self.client.push(own, f"team/app:{name}-s", "u2"), "a stranger's push", "denied", "403", "orbidden")
        self.is_refused(self.client.pull(f"team/app:{name}", None), "a pull by nobody", *self.refused_as_nobody)
        self.is_refused(self.client.push(self.layouts["quota"], f"team/small:{name}"), "a push over the quota", "quota exceeded", "403", "orbidden")

    def refuse_a_large_layer(self):
        told, where = self.front.asked(self.front.too_large), f"team/app:{self.client.name}-large"
        ran = self.client.push(self.layouts["large"], where)
        if ran.ended or not self.client.may_wait:
            self.is_refused(ran, "a layer over 64 MiB", *self.refused_as_large)
        else:
            print(f"        {self.client.name}: a layer over 64 MiB: {ran.text}, as is known of it")
        self.say(self.front.was_asked(told, self.front.too_large), "it was told 413")
        self.say(self.front.digest(*where.split(":")) is None, "and nothing came of it")

    def all(self):
        self.client.begin()
        self.push_and_pull()
        self.mount()
        self.index()
        self.refusals()
        self.refuse_a_large_layer()
