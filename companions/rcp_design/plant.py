"""The drone of examples/drone.toml as a plant: what its motors do to it. Frames are of 5 ms."""
from __future__ import annotations

from dataclasses import dataclass


@dataclass
class Drone:
    """Pitch in mrad, its rate in mrad/s, height in mm, its speed in mm/s; `wind` turns it by so many mrad/s a frame, and
    the gyro reads `drift` too much."""

    pitch: float = 150.0
    rate: float = 0.0
    height: float = 0.0
    speed: float = 0.0
    wind: float = 2.0
    drift: float = 10.0

    def sensors(self) -> dict[str, int]:
        """What the sensors of the task file read."""
        return {"gyro": round(self.rate + self.drift), "tilt": round(100 * self.pitch), "alt": round(self.height),
                "stick": 0, "want": 2000}

    def step(self, commands: dict[str, int]) -> None:
        """One frame under these commands: the elevator turns it, the motor lifts it, and gravity takes 500 of the thrust."""
        self.rate += commands["elevator"] / 50 + self.wind
        self.pitch += self.rate / 200
        self.speed += (commands["motor"] - 500) * 9.81 / 500 * 5 - self.speed / 400
        self.height = max(0.0, self.height + self.speed / 200)
