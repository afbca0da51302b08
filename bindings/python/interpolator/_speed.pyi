from typing import Any, Callable, Dict, List, Optional, Tuple

class Plan:
    def __new__(
        cls, format: bytes, names: Tuple[str, ...], uses: Tuple[Tuple[Any, ...], ...]
    ) -> "Plan": ...
    def format(self, values: Dict[str, Any]) -> Optional[str]: ...
    def rows(self, columns: bytes, rows: List[Any]) -> Optional[List[str]]: ...

def bind(
    format: Optional[int],
    rows: Optional[int],
    field_size: int,
    text_for: Callable[[Any, Any], str],
    left_out: Tuple[type, ...],
    decimal: type,
) -> None: ...
