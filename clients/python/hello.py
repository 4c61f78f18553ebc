"""A greeter in Python, for crates/example_hello/data/hello.toml."""
import sys

from geqiwlla import UVM_LOW, Component, component, main


@component("greeter")
class Greeter(Component):
    def run_phase(self):
        self.raise_objection()
        self.wait(10)

    def wake(self, tag):
        self.info("HELLO", "hello", UVM_LOW)
        self.drop_objection()


if __name__ == "__main__":
    sys.exit(main())
