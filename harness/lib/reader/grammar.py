"""The specification's own productions (October 2021, appendix B), and the notation that they are written in (2.1.6, appendix A).

A production's alternatives stand on lines of their own. A terminal is `spelled` or one of the lexer's classes; NoBrace is the restriction that no `{`
follows. X? stands for two alternatives, X+ for a list that is left-recursive, and [Const], [?Const] are parameters."""
import itertools

TYPE_SYSTEM = '''
TypeSystemExtensionDocument : TypeSystemDefinitionOrExtension+
TypeSystemDefinitionOrExtension :
    TypeSystemDefinition
    TypeSystemExtension
TypeSystemDefinition :
    SchemaDefinition
    TypeDefinition
    DirectiveDefinition
TypeSystemExtension :
    SchemaExtension
    TypeExtension
SchemaDefinition : Description? `schema` Directives[Const]? `{` RootOperationTypeDefinition+ `}`
SchemaExtension :
    `extend` `schema` Directives[Const]? `{` RootOperationTypeDefinition+ `}`
    `extend` `schema` Directives[Const] NoBrace
RootOperationTypeDefinition : OperationType `:` NamedType
OperationType :
    `query`
    `mutation`
    `subscription`
Description : StringValue
TypeDefinition :
    ScalarTypeDefinition
    ObjectTypeDefinition
    InterfaceTypeDefinition
    UnionTypeDefinition
    EnumTypeDefinition
    InputObjectTypeDefinition
TypeExtension :
    ScalarTypeExtension
    ObjectTypeExtension
    InterfaceTypeExtension
    UnionTypeExtension
    EnumTypeExtension
    InputObjectTypeExtension
ScalarTypeDefinition : Description? `scalar` Name Directives[Const]?
ScalarTypeExtension : `extend` `scalar` Name Directives[Const]
ObjectTypeDefinition :
    Description? `type` Name ImplementsInterfaces? Directives[Const]? FieldsDefinition
    Description? `type` Name ImplementsInterfaces? Directives[Const]? NoBrace
ObjectTypeExtension :
    `extend` `type` Name ImplementsInterfaces? Directives[Const]? FieldsDefinition
    `extend` `type` Name ImplementsInterfaces? Directives[Const] NoBrace
    `extend` `type` Name ImplementsInterfaces NoBrace
ImplementsInterfaces :
    ImplementsInterfaces `&` NamedType
    `implements` `&`? NamedType
FieldsDefinition : `{` FieldDefinition+ `}`
FieldDefinition : Description? Name ArgumentsDefinition? `:` Type Directives[Const]?
ArgumentsDefinition : `(` InputValueDefinition+ `)`
InputValueDefinition : Description? Name `:` Type DefaultValue? Directives[Const]?
InterfaceTypeDefinition :
    Description? `interface` Name ImplementsInterfaces? Directives[Const]? FieldsDefinition
    Description? `interface` Name ImplementsInterfaces? Directives[Const]? NoBrace
InterfaceTypeExtension :
    `extend` `interface` Name ImplementsInterfaces? Directives[Const]? FieldsDefinition
    `extend` `interface` Name ImplementsInterfaces? Directives[Const] NoBrace
    `extend` `interface` Name ImplementsInterfaces NoBrace
UnionTypeDefinition : Description? `union` Name Directives[Const]? UnionMemberTypes?
UnionMemberTypes :
    UnionMemberTypes `|` NamedType
    `=` `|`? NamedType
UnionTypeExtension :
    `extend` `union` Name Directives[Const]? UnionMemberTypes
    `extend` `union` Name Directives[Const]
EnumTypeDefinition :
    Description? `enum` Name Directives[Const]? EnumValuesDefinition
    Description? `enum` Name Directives[Const]? NoBrace
EnumValuesDefinition : `{` EnumValueDefinition+ `}`
EnumValueDefinition : Description? EnumValue Directives[Const]?
EnumTypeExtension :
    `extend` `enum` Name Directives[Const]? EnumValuesDefinition
    `extend` `enum` Name Directives[Const] NoBrace
InputObjectTypeDefinition :
    Description? `input` Name Directives[Const]? InputFieldsDefinition
    Description? `input` Name Directives[Const]? NoBrace
InputFieldsDefinition : `{` InputValueDefinition+ `}`
InputObjectTypeExtension :
    `extend` `input` Name Directives[Const]? InputFieldsDefinition
    `extend` `input` Name Directives[Const] NoBrace
DirectiveDefinition : Description? `directive` `@` Name ArgumentsDefinition? `repeatable`? `on` DirectiveLocations
DirectiveLocations :
    DirectiveLocations `|` DirectiveLocation
    `|`? DirectiveLocation
DirectiveLocation :
    ExecutableDirectiveLocation
    TypeSystemDirectiveLocation
ExecutableDirectiveLocation :
    `QUERY`
    `MUTATION`
    `SUBSCRIPTION`
    `FIELD`
    `FRAGMENT_DEFINITION`
    `FRAGMENT_SPREAD`
    `INLINE_FRAGMENT`
    `VARIABLE_DEFINITION`
TypeSystemDirectiveLocation :
    `SCHEMA`
    `SCALAR`
    `OBJECT`
    `FIELD_DEFINITION`
    `ARGUMENT_DEFINITION`
    `INTERFACE`
    `UNION`
    `ENUM`
    `ENUM_VALUE`
    `INPUT_OBJECT`
    `INPUT_FIELD_DEFINITION`
Directives[Const] : Directive[?Const]+
Directive[Const] : `@` Name Arguments[?Const]?
Arguments[Const] : `(` Argument[?Const]+ `)`
Argument[Const] : Name `:` Value[?Const]
DefaultValue : `=` Value[Const]
Value[Const] :
    [~Const] Variable
    IntValue
    FloatValue
    StringValue
    BooleanValue
    NullValue
    EnumValue
    ListValue[?Const]
    ObjectValue[?Const]
BooleanValue :
    `true`
    `false`
NullValue : `null`
EnumValue : NameButLiterals
ListValue[Const] :
    `[` `]`
    `[` Value[?Const]+ `]`
ObjectValue[Const] :
    `{` `}`
    `{` ObjectField[?Const]+ `}`
ObjectField[Const] : Name `:` Value[?Const]
Variable : `$` Name
Type :
    NamedType
    ListType
    NonNullType
NamedType : Name
ListType : `[` Type `]`
NonNullType :
    NamedType `!`
    ListType `!`
'''

# The rest of the appendix, for parsers that read whole documents.
EXECUTABLE = '''
Document : Definition+
Definition :
    ExecutableDefinition
    TypeSystemDefinitionOrExtension
ExecutableDefinition :
    OperationDefinition
    FragmentDefinition
OperationDefinition :
    OperationType Name? VariableDefinitions? Directives? SelectionSet
    SelectionSet
SelectionSet : `{` Selection+ `}`
Selection :
    Field
    FragmentSpread
    InlineFragment
Field : Alias? Name Arguments? Directives? SelectionSet?
Alias : Name `:`
FragmentSpread : `...` FragmentName Directives?
InlineFragment : `...` TypeCondition? Directives? SelectionSet
FragmentDefinition : `fragment` FragmentName TypeCondition Directives? SelectionSet
FragmentName : NameButOn
TypeCondition : `on` NamedType
VariableDefinitions : `(` VariableDefinition+ `)`
VariableDefinition : Variable `:` Type DefaultValue? Directives[Const]?
'''

# Classes of names that a token of one spelling can belong to, with the spellings left out.
NAMES = {'Name': (), 'NameButLiterals': ('`true`', '`false`', '`null`'), 'NameButOn': ('`on`',)}
CLASSES = ('IntValue', 'FloatValue', 'StringValue')
# What has levels, and which of these open the next one.
LEVELLED = ('Value', 'ListValue', 'ObjectValue', 'ObjectField', 'Type', 'ListType', 'NonNullType')
OPENING = ('ListValue', 'ObjectValue', 'ListType')


def written(text):
    """Each head with its alternatives, as lists of words."""
    productions, head = {}, None
    for line in filter(None, text.splitlines()):
        if not line.startswith(' '):
            head, line = line.split(' :', 1)
            productions[head] = []
        if line.strip():
            productions[head].append(line.split())
    return productions


def with_parameter(productions):
    """[Const] made into productions of their own."""
    made = {}
    for head, alternatives in productions.items():
        if not head.endswith('[Const]'):
            made[head] = alternatives
            continue
        for suffix in ('', '[Const]'):
            made[head[:-len('[Const]')] + suffix] = [
                [word.replace('[?Const]',
                              suffix) for word in words if word != '[~Const]'] for words in alternatives if words[0] != '[~Const]' or not suffix]
    return made


def without_options(words):
    """The alternatives that an alternative with X? stands for."""
    choices = [((word[:-1],), ()) if word.endswith('?') else ((word,),) for word in words]
    return [tuple(word for piece in chosen for word in piece) for chosen in itertools.product(*choices)]


def base(symbol):
    return symbol.rstrip('+').replace('[Const]', '')


def with_levels(productions, most):
    """The same grammar with values and types that know how many levels are open: at the last level no opener has a production."""
    made = {}

    def at(word, level):
        return f'{word.rstrip("+")}@{level}' + '+' * word.endswith('+') if base(word) in LEVELLED else word

    for head, alternatives in productions.items():
        if base(head) not in LEVELLED:
            made[head] = [[at(word, 0) for word in words] for words in alternatives]
            continue
        is_opening = base(head) in OPENING
        for level in range(most + 1):
            inside = level + is_opening
            made[at(head, level)] = [] if inside > most else [[at(word, inside) for word in words] for words in alternatives]
    return made


class Grammar:
    def __init__(self, text, start, most_levels=None):
        productions = with_parameter(written(text))
        if most_levels is not None:
            productions = with_levels(productions, most_levels)
        self.start = start
        # Each alternative: its symbols, and whether a `{` must not follow.
        self.alternatives = {}
        for head, alternatives in productions.items():
            self.alternatives[head] = []
            for words in alternatives:
                is_restricted = words[-1] == 'NoBrace'
                for symbols in without_options(words[:-1] if is_restricted else words):
                    self.alternatives[head].append((symbols, is_restricted))
        for symbol in {symbol for all_of in self.alternatives.values() for symbols, _ in all_of for symbol in symbols if symbol.endswith('+')}:
            self.alternatives[symbol] = [((symbol[:-1],), False), ((symbol, symbol[:-1]), False)]
        self.check()

    def check(self):
        """Every word is a head or a terminal; nothing can be empty, which the recogniser counts on."""
        for head, alternatives in self.alternatives.items():
            for symbols, _ in alternatives:
                assert symbols, head
                for symbol in symbols:
                    assert symbol in self.alternatives or symbol in NAMES or symbol in CLASSES or symbol.startswith('`'), symbol

    def keywords(self):
        """The spellings of names that are terminals."""
        spelled = {symbol[1:-1] for all_of in self.alternatives.values() for symbols, _ in all_of for symbol in symbols if symbol.startswith('`')}
        return {spelling for spelling in spelled if spelling[0].isalpha()}


def accepts(symbol, terminal):
    """Whether the grammar's terminal takes what the lexer calls a token."""
    if symbol in NAMES:
        return (terminal == 'Name' or terminal[1:2].isalpha()) and terminal not in NAMES[symbol] and terminal not in CLASSES
    return symbol == terminal
