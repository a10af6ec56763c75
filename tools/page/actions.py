"""Keys and clicks as the actions of the W3C, which WebDriver and WebDriver BiDi have alike."""
from typing import Any

KEYS = {"Enter": "\ue007", "Escape": "\ue00c", "Tab": "\ue004", "ArrowDown": "\ue015"}
MODIFIERS = {1: "\ue00a", 2: "\ue009", 8: "\ue008"}


class Actions:
    """What presses and clicks in a browser that performs such actions."""

    def perform(self, **given: Any) -> None:
        """Performs the actions of one device."""
        raise NotImplementedError

    def press(self, key: str, _code: str, _number: int, modifiers: int = 0) -> None:
        """Presses a key with modifiers: 1 is Alt, 2 Ctrl, 8 Shift."""
        held = [it for bit, it in MODIFIERS.items() if modifiers & bit]
        down = [{"type": "keyDown", "value": it} for it in [*held, KEYS.get(key, key)]]
        self.perform(type="key", actions=down + [{"type": "keyUp", "value": it["value"]} for it in reversed(down)])

    def click(self, x: float, y: float) -> None:
        moved = {"type": "pointerMove", "x": round(x), "y": round(y)}
        presses = [{"type": "pointerDown", "button": 0}, {"type": "pointerUp", "button": 0}]
        self.perform(type="pointer", actions=[moved, *presses])
