"""PyYAML's parser and composer, with short cuts for what comes most often: a scalar without anchor and tag.

The events and nodes are those of the long way, which asks of every node whether it is an alias, an anchor, a tag and so on.
"""

from typing import Any, Optional, Type

from yaml.composer import Composer
from yaml.events import Event, ScalarEvent
from yaml.nodes import Node, ScalarNode
from yaml.parser import Parser
from yaml.tokens import BlockEntryToken, KeyToken, ScalarToken, ValueToken

PLAIN, QUOTED = (True, False), (False, True)


def event_of(token: ScalarToken) -> ScalarEvent:
    """The event of a scalar without anchor and tag."""
    implicit = PLAIN if token.plain else QUOTED
    return ScalarEvent(None, None, implicit, token.value, token.start_mark, token.end_mark, token.style)


class QuickParser(Parser):
    """The parser. The token of a scalar becomes its event at once, with the key, value or entry before it if there is one."""

    def check_event(self, *choices: Type[Event]) -> bool:
        event = self.peek_event() if self.current_event is None else self.current_event
        return event is not None and (not choices or isinstance(event, choices))

    def parse_node(self, block: bool = False, indentless_sequence: bool = False) -> Event:
        token = self.peek_token()
        if not isinstance(token, ScalarToken):
            return super().parse_node(block, indentless_sequence)
        self.get_token()
        self.state = self.states.pop()
        return event_of(token)

    def parse_block_mapping_key(self) -> Event:
        token = self.take_scalar_after(KeyToken)
        if token is None:
            return super().parse_block_mapping_key()
        self.state = self.parse_block_mapping_value
        return event_of(token)

    def parse_block_mapping_value(self) -> Event:
        token = self.take_scalar_after(ValueToken)
        if token is None:
            return super().parse_block_mapping_value()
        self.state = self.parse_block_mapping_key
        return event_of(token)

    def parse_block_sequence_entry(self) -> Event:
        token = self.take_scalar_after(BlockEntryToken)
        if token is None:
            return super().parse_block_sequence_entry()
        self.state = self.parse_block_sequence_entry
        return event_of(token)


class QuickComposer(Composer):
    """The composer. A scalar's event becomes its node at once, if no resolver looks at paths."""

    current_event: Optional[Event]  # of the parser

    def compose_node(self, parent: Optional[Node], index: Any) -> Optional[Node]:
        event = self.current_event or self.peek_event()
        if not isinstance(event, ScalarEvent) or event.anchor is not None or self.yaml_path_resolvers:
            return super().compose_node(parent, index)
        self.current_event = None
        tag = event.tag
        if tag is None or tag == "!":
            tag = self.resolve(ScalarNode, event.value, event.implicit)
        return ScalarNode(tag, event.value, event.start_mark, event.end_mark, event.style)
