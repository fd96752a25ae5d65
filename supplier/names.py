"""Names of inputs and coils; without a source they are i0, k0 and so on."""


class Names:
    def __init__(self, inputs, coils):
        self.inputs = list(inputs)
        self.coils = list(coils)

    @classmethod
    def plain(cls, inputs, coils):
        return cls((f"i{n}" for n in range(inputs)),
                   (f"k{n}" for n in range(coils)))

    def input(self, number):
        return self.inputs[number] if number < len(self.inputs) else f"i{number}"

    def coil(self, number):
        return self.coils[number] if number < len(self.coils) else f"k{number}"

    def contact(self, name, number):
        if name == "CONSTANT":
            return str(number)
        return self.input(number) if name == "INPUT" else self.coil(number)

    def contacts(self):
        """The formula record of each name."""
        return {name: (kind, n) for kind, row in
                (("INPUT", self.inputs), ("COIL", self.coils))
                for n, name in enumerate(row)}
