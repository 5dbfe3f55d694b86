"""Boots a zone of 64 frames, fills a group up to its limit, and prints what it uses: see docs/EMBED.md, "From Python".

    PYTHONPATH=bindings/python python3 examples/host.py
"""
import tempolemon


def main() -> None:
    with tempolemon.Zone(frames=64, cpus=2, batch=4, high=8, stock=4) as zone:
        with zone.take(1) as cpu:
            web = cpu.mkdir("/web")
            cpu.write("/web", "memory.max", "128K")
            try:
                while True:
                    print("frame", cpu.alloc_dirty(web, 4))  # dirty, so that it isn't reclaimed
            except tempolemon.OverLimit as refused:
                print("refused", refused.status)
            print(cpu.read("/web", "memory.current"), end="")
    print(f"{zone.report.charged} of {zone.report.frames} frames were charged")


if __name__ == "__main__":
    main()
