"""What each refusal and fault means: the words of every message of this tool. docs/reference/messages.md says the same with programs.

A rule has one general sentence, sentences with {slots} for the forms in which it is broken, and what to do. The first sentence whose
slots are all known is shown (slots.py, fault_slots.py); if there is none, the general one. A sentence that has advice of its own is
a pair with it; a third text is what an editor can write for the word at the place. `back` has the sentences of a body that runs backward, as under `uncall`, and `fix_back` what to do then."""
from typing import Dict, NamedTuple, Tuple, Union

PAGE = 'reference/messages.md'
FORMATS = 'reference/formats.md'


Forms = Tuple[Union[str, Tuple[str, ...]], ...]


class Rule(NamedTuple):
    """A refusal or a fault."""
    number: int
    name: str
    sentence: str
    forms: Forms = ()
    fix: str = ''
    back: Forms = ()
    fix_back: str = ''
    is_fault: bool = False
    page: str = PAGE

    @property
    def title(self) -> str:
        return f'{"fault" if self.is_fault else "refusal"} {self.number} {self.name}'

    @property
    def link(self) -> str:
        """The page that says more, with the heading there."""
        if self.page != PAGE:
            return f'docs/{self.page}#refusals'
        return f'docs/{PAGE}#{"fault-" if self.is_fault else ""}{self.number}-{self.name.lower()}'


REFUSALS = (
    Rule(1, 'BadByte', 'A source must consist of tokens, white space and comments.', (
        'The character `{character}` must not occur here.',
        'The byte {byte} must not occur here: it is part of no character that a token has.'),
        "Write names with ASCII letters, digits, `_` and `'`, beginning with a letter. Comments may hold any bytes."),
    Rule(2, 'NumberTooLarge', 'A number must be at most 2147483647.', (
        'The number {number} must be at most 2147483647.',),
        'Words have 32 bits and wrap around: to add 4294967295, subtract 1. For -2147483648, subtract 2147483647 and then 1.'),
    Rule(3, 'Syntax', 'The source must follow the grammar.', (
        'Expected {expected}, found {found}.',),
        'Compare the statement with its form, which `rpp help` names after the word: `rpp help if`.'),
    Rule(4, 'Limit', 'A program must keep within the limits of the language.', (
        'There must be at most {most} {what}.',),
        'Split what is too large: a long block into methods, a wide class into two, a long expression with a local. Pass many '
        'parameters in an object or an array.'),
    Rule(5, 'DuplicateClass', 'Each class must have a name of its own.', (
        'This class must have another name: line {line} already declares a class `{name}`.',),
        'Rename one of the two, or merge them. A class that extends another one says `inherits`.'),
    Rule(6, 'UnknownClass', 'The type of a field or a parameter, and the name after `inherits`, must be the name of a class, or `int`.', (
        ('A class names its parent by `inherits`, not by `{inherits}`.', 'Write `inherits {parent}`.', 'inherits'),
        ('There is no type `{truth}`: 0 is false, and every other number is true.', 'Write `int`.', 'int'),
        ('There is no type `{foreign}`: the types are `int`, the classes of the source, and arrays of them.', 'Write `int`, or `int[]` for a '
         'row of numbers.'),
        ('`{name}` must be the name of a class. Did you mean `{similar}`?', 'Correct the name.', '{similar}'),
        ('There is no type `{stack}`: an array, and a count of what is in it, serve in its place.', 'Declare an `int[]` and an `int`.'),
        ('`{name}` must be the name of a class, and it is that of a {what}.', 'Write the type in front of the name, as `int {name}`.'),
        '`{name}` must be the name of a class, and no class of this source has it.'),
        'Declare the class, before or after its use, or correct the name.'),
    Rule(7, 'InheritanceCycle', 'A class must not inherit from itself, directly or over other classes.', (
        '`{name}` must not inherit from itself: {chain}.',
        '`{name}` must not inherit from a class that inherits from itself.'),
        'Remove one `inherits` of the cycle. Move what the classes share into one more class, and inherit from that.'),
    Rule(8, 'DuplicateField', 'A field must have a name that no other field of its class has, inherited ones included.', (
        'The field `{name}` of `{class}` must have another name: `{class}` inherits a field `{name}` from `{ancestor}`.',
        '`{class}` must not declare the field `{name}` twice.'),
        'If you mean the other field, delete this one. Otherwise rename it.'),
    Rule(9, 'DuplicateMethod', 'A class must not declare two methods of one name, whatever their parameters are.', (
        ('`{class}` must not declare the method `{name}` twice, even with other parameters: the first one is in line {overloaded}.',
         'Rename one of the two, and its calls.'),
        '`{class}` must not declare the method `{name}` twice: the first one is in line {line}.'),
        'Rename one of the two.'),
    Rule(10, 'OverrideDiffers', 'A method that overrides an inherited one must have the same types of parameters.', (
        '`{name}` must take ({wanted}), as it does in `{ancestor}`, not ({given}).',),
        'Use the same types. If this class needs more, set a field by another method first, or rename this one.'),
    Rule(11, 'NoMain', 'One class must declare a method `main` without parameters.', (
        '`main` of `{class}`, in line {line}, must have no parameters: a program gets its input through `int` fields.',
        'The source must not be {empty}: it needs a class with a method `main`.',
        'One of the methods must be called `main`. Did you mean `{similar}` of line {line}?',
        ('One of the methods must be called `main`, with which a run begins. `{constructor}` of line {line} has the name of its class, but '
         'there are no constructors.', 'Name it `main`, or declare `method main()` besides.')),
        'Declare `method main()` in one class. Its `int` fields are the input and the output of the program.'),
    Rule(12, 'TwoMains', 'A program must have only one method `main` without parameters.', (
        '`{class}` must not declare `main`: `{first}` already does.',),
        'Rename the second one, and call it from `main`.'),
    Rule(13, 'UnknownName', 'A name must be in scope: a local, a parameter or a field, and a class or a method must exist.', (
        ('There is no `{this}`: a field of the same object is named by itself, and `call {example}(..)` calls a method of it.',
         'Leave `{this}` out. The object itself cannot be passed or kept.'),
        ('There is no `{super}`: a method replaces the inherited one of its name, which then cannot be called.',
         'Give the inherited method another name, and call it by that.'),
        ('There is no `{truth}`: 0 is false, and every other number is true.', 'Write {number}.', '{number}'),
        ('There is no `{null}`: a variable that refers to nothing is `nil`.', 'Write `nil`.', 'nil'),
        ('`{late}` must be in scope here: its local is so only between `local` and `delocal`, from line {first} to line {last}.',
         'Use it before its `delocal`, or declare a field.'),
        ('`{receiver}` must be an object, and it is a class: `call x::{called}(..)` names a variable.',
         'Make an object by `new {receiver} x`. A method of the same object is called by `call {called}(..)`.'),
        ('`{elsewhere}` must be in scope here: it is a field of `{other}`, and only the methods of that class see it.',
         'Call a method of `{other}` that adds the value to a parameter.'),
        ('`{variable}` must be a local in scope, a parameter, or a field of `{class}`. Did you mean `{similar}`?', 'Correct the name.', '{similar}'),
        ('`{variable}` must be a local in scope, a parameter, or a field of `{class}`.', 'Declare it: a field for what the run begins and '
         'ends with, else `local int {variable} = 0` .. `delocal int {variable} = 0`.'),
        ('`{method}` must be a method of `{class}`. Did you mean `{similar}`?', 'Correct the name.', '{similar}'),
        ('`{method}` must be a method of `{class}`, and it is one of `{other}`.', 'Name an object of that class: `call x::{method}(..)`.'),
        ('`{method}` must be a method of `{class}`.', 'Declare `method {method}(..)` there.'),
        ('There is no type `{type_truth}`: 0 is false, and every other number is true.', 'Write `int`.', 'int'),
        ('There is no type `{type_foreign}`: the types are `int`, the classes of the source, and arrays of them.', 'Write `int`, or `int[]` '
         'for a row of numbers.'),
        ('`{class_name}` must be the name of a class. Did you mean `{similar}`?', 'Correct the name.', '{similar}'),
        ('`{class_name}` must be the name of a class, and it is a variable of the class `{type}`.', 'Write `{type}`.', '{type}'),
        ('`{class_name}` must be the name of a class, and no class of this source has it.', 'Declare `class {class_name}`.')),
        'Correct the name, or declare it.'),
    Rule(14, 'Redeclared', 'A parameter or local must have a name that no parameter or local in scope has.', (
        '`{name}` must have another name: it is in scope since line {line}.',),
        'Rename it, or end the first one before. A local may have the name of a field, which it hides.'),
    Rule(15, 'TypeDiffers', 'The types must match, and a local must end under its own name and type.', (
        ('This `{closer}` must end `{wanted}`, not `{found}`: the local that began last ends first.', 'Exchange the two, or correct the name.'),
        ('This `{closer}` must end `{wanted}` with the type `{type}`, not `{given}`.', 'Write the same type at both ends.'),
        ('The argument `{argument}` must have exactly the type of the parameter `{parameter}`: `{type}`, not its subclass `{subclass}`.',
         'Copy it into a local of that class around the call: `local {type} v = nil`, `copy {subclass} {argument} v`, the call with `v`, '
         '`uncopy {subclass} {argument} v`, `delocal {type} v = nil`.'),
        ('The argument `{argument}` must have exactly the type of the parameter `{parameter}`: `{type}`, not `{given}`.',
         'Pass a variable of that type, or change the type of the parameter.'),
        ('`{local}` must begin and end as `nil`, since its type is `{type}`.',
         'Fill it by `copy` and empty it by `uncopy`, or swap the reference in and out by `<=>`.'),
        ('`{int_local}` must begin and end with an `int`, since that is its type.', 'Write a number, or another type.'),
        ('The index `{index}` must be an `int`, not `{given}`.', 'An array is indexed from 0.'),
        ('The condition `{condition}` must be an `int`, not `{given}`.', 'Compare a reference with `nil`: `{condition} != nil`.'),
        ('`{operator}` must not compare an `int` with `{nil}`, which only references can be.', 'Compare a number with 0.'),
        ('`{operator}` must compare two values of one type, not `{left}` and `{right}`.', 'References are compared with those of the same '
         'class, of an ancestor or of a subclass, and with `nil`.'),
        ('Both sides of `{arithmetic}` must be `int`, not `{left}` and `{right}`.', 'References are only compared, by `=` and `!=`.'),
        ('The length `{length}` must be an `int`, not `{given}`.', 'Write a number or an `int` variable.'),
        ('`{place}` must be of the class that `{form}` names, `{made}`, or an {ancestor} of it, not `{given}`.',
         'Name another class, or another variable.'),
        ('`{place}` must have the type that `{form}` names, `{made}`, not `{given}`.', 'Name another type, or another variable.'),
        ('`{updated}` must be an `int` to be updated, not `{given}`.', 'A reference changes by `new`, `delete`, `copy`, `uncopy` and '
         '`<=>`.'),
        ('What `{name}` is updated by must be an `int`, and `{row}` is an array of them.', 'Write one of its elements, as `{row}[0]`.'),
        ('What `{name}` is updated by must be an `int`, and `{value}` is not: its type is `{given}`.', 'To get a number from an object, '
         'call a method of it that adds the number to a parameter.'),
        ('`{left_name}` and `{right_name}` must have one type to be swapped, not `{left_type}` and `{right_type}`.', 'Swap variables of '
         'one type. A reference of a subclass comes by `copy`.')),
        'Use one type, and end locals in the reverse order of their beginning.'),
    Rule(16, 'SelfUpdate', 'What a statement changes must not occur in its own value or index.', (
        ('`{cleared}` must not occur in its own value: this gives 0, from which no way leads back.',
         'Undo what set it, as by `uncall`, or exchange it with a variable that is 0.'),
        ('`{name}` must not occur in its own value: the old one could not be found again.',
         'Put the new value into a variable that is 0, such as a new field `int {fresh}`: `{fresh} += {new}`.'),
        ('`{array}` must not be read by a statement that changes one of its elements: the indexes could be equal.',
         'If the indexes differ, use a local: `local int {fresh} = {value}`, `{changed} {by} {fresh}`, `delocal int {fresh} = {value}`.'),
        ('`{indexed}` must not occur in the index of its own element.',
         'If the two elements differ, index by a local: `local int {fresh} = {index}` .. `delocal int {fresh} = {index}`.'),
        ('`{moved}` must not occur in an index of this `{form}`, which changes it.',
         'Put the index into a variable that is 0, such as a new field `int {fresh}`: `{fresh} += {index}`. Index by that.'),
        ('`{measured}` must not occur in the length of this `{form}`, which changes it.', 'Keep the length in another variable.'),
        ('`{receiver}` must not occur in the index of the element that is called.',
         'Index by a local: `local int {fresh} = {index}` .. `delocal int {fresh} = {index}`.')),
        'Put the new value into another variable, such as `y += x + x` for `x += x`.'),
    Rule(17, 'SameArgument', 'The arguments and the receiver of a call must be different variables, and so must the two of `copy` and '
         '`uncopy`.', (
             '`{argument}` must not be passed twice in one call: its value moves into one parameter only.',
             '`{receiver}` must not be both the receiver and an argument of one call.',
             'The two variables of `{form}` must differ, and both are `{name}`.'),
         'Pass the second one as a local that begins with the value of the first. For a reference, `copy` it into the local.'),
    Rule(18, 'FieldArgument', 'A call on the same object must not pass a field of it.', (
        'The field `{name}` must not be an argument of a call on the same object: `{method}` reaches it anyway.',),
        'Drop the parameter and let the method use the field. If it serves several fields, swap the field into a local, call, and swap '
        'it back.'),
    Rule(19, 'WrongArity', 'A call must pass as many arguments as the method has parameters.', (
        'The call must pass {wanted} to `{method}`, not {given}: {parameters}.',
        'The call must pass {wanted} to `{method}`, not {given}.'),
        'Give each parameter a variable. A local holds a number for the time of the call.'),
    Rule(20, 'NotAnArray', 'What is indexed must be an array.', (
        '`{name}` must be an array to be indexed, and its type is `{type}`.',),
        'Declare an array, `int[] x` or `Node[] x`, and make it by `new`. There are no arrays of arrays: keep the rows one after the '
        'other in one array.'),
    Rule(21, 'RefusedOperator', 'Expressions must not multiply, divide or take remainders: `*`, `/` and `%` are reserved.', (
        ('`{product}` must not be used: expressions do not multiply.',
         'A product with a small number is a sum: `x + x + x`. docs/learn/from-janus.md has a method for others.'),
        ('`{quotient}` must not be used: expressions do not divide.',
         'A loop counts how often the divisor can be subtracted. docs/learn/from-janus.md has a method for it.'),
        ('`{remainder}` must not be used: expressions do not take remainders.',
         'The remainder of a number from 0 by 8 is `x & 7`. docs/learn/from-janus.md has a method for others.')),
        'Write sums, and loops that add or subtract. docs/learn/from-janus.md has methods.'),
    Rule(22, 'LocalInOwnExpression', 'A local must not occur in its own initial or final value.', (
        ('`{final}` must not occur in its own final value, in line {line}.',
         'Compute that value from other variables. If none has it, make the local a field.'),
        '`{name}` must not occur in its own initial or final value, where it is not in scope; a field of that name is hidden.',
        '`{name}` must not occur in its own initial or final value.'),
        'Rename the local if its values read a field of the same name.'),
    Rule(23, 'NotClassType', 'A receiver must be an object, and `copy` and `uncopy` must name a class or an array.', (
        ('`{form}` must name a class or an array, not `{written}`: an `int` is copied by adding it to a variable that is 0.',
         'Write `y += x` for `copy int x y`, and `y -= x` for `uncopy int x y`.'),
        '`{receiver}` must be an object to receive a call, and its type is `{type}`.'),
        'Numbers and arrays have no methods. Call a method of an element, `call a[i]::m(..)`, not of the array.'),
    Rule(24, 'BadLine', 'A line of an assembly text must be an instruction, a static word, a source-map entry or a name.', page=FORMATS),
    Rule(25, 'UnknownMnemonic', 'The first word after the labels must be a mnemonic, or `STATIC`, `MARK` or `NAME`.', page=FORMATS),
    Rule(26, 'DuplicateLabel', 'A label must have a name that no earlier label has.', page=FORMATS),
    Rule(27, 'UnknownLabel', 'An operand must name a label of the text.', page=FORMATS),
    Rule(28, 'NotOneToOne', 'Each instruction must be one-to-one, so that it can be undone.', page=FORMATS),
    Rule(29, 'NoStart', 'There must be exactly one START.', page=FORMATS),
    Rule(30, 'NoFinish', 'There must be exactly one FINISH.', page=FORMATS),
    Rule(31, 'ImageTruncated', 'An image file must not end within a field.', page=FORMATS),
    Rule(32, 'ImageMagic', 'An image file must begin with the mark `RPPI`.', page=FORMATS),
    Rule(33, 'ImageField', 'Each field of an image file must be within its range.', page=FORMATS),
    Rule(34, 'ImageTrailing', 'Nothing must follow the image in its file.', page=FORMATS),
    Rule(35, 'HeapOrder', 'H must be from 1 to 20: the heap has 2^H words.', page=FORMATS),
    Rule(36, 'DeepRange', 'D must be from 1 to 8192: the most calls that may be active.', page=FORMATS),
    Rule(37, 'UnknownField', 'A line of the input must name an `int` field of the main class, each one once.', page=FORMATS),
    Rule(38, 'BadState', 'A state file must be one of this image with these H and D.', page=FORMATS),
    Rule(39, 'BadCommand', 'A line of a script must be empty or a command.', page=FORMATS),
    Rule(40, 'BadInputLine', 'A line of the input must be NAME = NUMBER.', page=FORMATS),
    Rule(41, 'TooManyCells', 'The instructions and words of an assembly text must keep within the limits of images.', page=FORMATS),
    Rule(43, 'BadNote', 'The numbers of a `MARK` or `NAME` line must be within the ranges of image files.', page=FORMATS),
    Rule(44, 'UnknownResult', 'The results must be different `int` fields of the main class.', page=FORMATS),
)


BEGIN_AS_IT_ENDED = ('`uncall` undoes a call. Begin it with the values that such a call leaves, and do not change them between the two. '
                     '`rpp debug` shows both directions.')

_FAULTS = (
    Rule(1, 'Fi', 'The assertion after `fi` must be true after the `then` block and false after the `else` block.', (
        'The assertion `{assertion}` must be true after the `then` block and false after the `else` block.',),
        'The way back uses the assertion to choose the block that it undoes: write one that distinguishes the two blocks once they have '
        'run. If they do not change what `if` tests, repeat that condition.', (
        'On this way back, the condition `{condition}` must be true after the `then` block was undone, and false after the `else` block '
        'was.',), BEGIN_AS_IT_ENDED),
    Rule(2, 'Loop', 'The assertion after `from` must be true when the loop begins, and false at every later iteration.', (
        'The assertion `{assertion}` must be true when the loop begins, and false at every later iteration.',),
        'The way back stops at it: write one that holds only before the first iteration, such as a counter that has its first value.', (
        'On this way back, the condition `{condition}` must be true when the loop begins, and false at every later iteration.',),
        BEGIN_AS_IT_ENDED),
    Rule(3, 'Delocal', 'A local must have its final value at `delocal`.', (
        '`{name}` must be equal to `{value}` at its `delocal`, and it is {given}.',
        '`{name}` must be equal to `{value}` at its `delocal`.'),
        'The way back begins with that value. Undo what changed the local, or end it with an expression that has its value. '
        '`rpp debug` shows both.', (
        'On this way back, `{name}` must be equal to its initial value `{value}` at its `local`, and it is {given}.',
        'On this way back, `{name}` must be equal to its initial value `{value}` at its `local`.'), BEGIN_AS_IT_ENDED),
    Rule(4, 'NotNil', 'What `new` and `copy` fill must be nil before: an old reference would be lost.', (
        '`{place}` must be nil before `{form}`, and it holds {reference}.',
        '`{place}` must be nil before `{form}`.'),
        'Move the old reference away by `<=>`, or end it by `delete` or `uncopy`. A `new` in a loop needs a local that is nil again at '
        'the end of each iteration.', (
        '`{place}` must be nil before this `{form}` is undone, and it holds {reference}.',
        '`{place}` must be nil before this `{form}` is undone.'), BEGIN_AS_IT_ENDED),
    Rule(5, 'Nil', 'A receiver, an indexed array, what `delete` names, and the first variable of `copy` and `uncopy` must not be nil.', (
        '`{place}` must not be nil here.',),
        'Make the object first, or test `a != nil`. While a call is active, its receiver and its arguments read as nil or 0.', (
        '`{place}` must not be nil before this `{undone}` is undone.',
        '`{place}` must not be nil on this way back.'), BEGIN_AS_IT_ENDED),
    Rule(6, 'Count', 'An object must have only one reference when it is deleted.', (
        '`{place}` must have the only reference to {reference}, which has {count}.',
        '`{place}` must have the only reference to its object.'),
        'End the other references first, each by the `uncopy` that matches its `copy`; `objects` of `rpp debug` shows them. An active '
        'call on the object counts as one.', (
        '`{place}` must have the only reference to {reference} before this `{form}` is undone, and it has {count}.',
        '`{place}` must have the only reference to its object before this `{form}` is undone.')),
    Rule(7, 'NotEmpty', 'The fields or elements of an object must all be 0 or nil when it is deleted.', (
        '`{field}` of {reference} must be 0 or nil when it is deleted, and it is {value}.',),
        'Swap the values out into variables, or `uncall` the method that filled them.', (
        '`{field}` of {reference} must be 0 or nil before this `{form}` is undone, and it is {value}.',)),
    Rule(8, 'HeapFull', 'The heap must have a free block that is large enough.', (
        'The heap of {heap} words must have a free block of {words} words.',),
        'Run with a larger heap, or delete what is no longer needed, in the reverse order of `new`, so that blocks merge.', (
        'The heap of {heap} words must have a free block of {words} words for this `{form}` to be undone.',)),
    Rule(9, 'Index', 'An index must be at least 0 and less than the length of the array.', (
        'The index of `{array}` must be at least 0 and less than {length}, and it is {index}.',
        'The index of `{array}` must be at least 0 and less than {length}.',
        'The index must be at least 0 and less than {length}, and it is {index}.'),
        'Count from 0, and end the loop at the length. An index is read without sign, so a negative one is too large.'),
    Rule(10, 'NotSame', 'The two variables of `uncopy` must differ, and have one reference.', (
        '`{first}` and `{second}` must have one reference, and they have {first_reference} and {second_reference}.',),
        'Name the variable that was copied from. A reference that was moved in by `<=>` is moved out by `<=>`.', (
        '`{first}` and `{second}` must have one reference before this `copy` is undone, and they have {first_reference} and '
        '{second_reference}.',), BEGIN_AS_IT_ENDED),
    Rule(11, 'ClassDiffers', '`delete` must name exactly the class with which the object was made.', (
        'The class of this `{form}` must be `{wanted}`, with which {reference} was made, not `{given}`.',),
        'Write that class, even if the variable has the type of an ancestor. If there are several, let an overridden method delete.', (
        'The class of this `{form}`, which is undone here, must be `{wanted}`, with which {reference} was made, not `{given}`.',),
        BEGIN_AS_IT_ENDED),
    Rule(12, 'LengthDiffers', '`delete` must give the length with which the array was made.', (
        'The length of this `{form}` must be {length}, with which {reference} was made.',),
        'Keep the length in a variable that does not change while the array exists.', (
        'The length of this `{form}`, which is undone here, must be {length}, with which {reference} was made.',),
        BEGIN_AS_IT_ENDED),
    Rule(13, 'Length', 'The length of a new array must be at least 1.', (
        'The length `{expression}` must be at least 1, and it is {value}.',
        'The length `{expression}` must be at least 1.'),
        'Test the length first, and make no array if there is nothing to keep.'),
    Rule(14, 'TooDeep', 'A run must not have more than D active calls, `main` included.', (
        'This call must not be made: {depth} calls are active, `main` included, and D allows no more.',),
        'Run with a larger D, up to 8192. If the recursion has no end, find the condition that should have ended it.'),
    Rule(15, 'Touched', 'A variable that is an argument or the receiver of a call must still be 0 or nil when the call ends.', (
        '`{name}` must still be {empty} when the call ends, and it was changed during the call.',
        '{names} must still be 0 or nil when the call ends, and one of them was changed during the call.'),
        'Its value moves into the call and back, which would overwrite the change. Reach the variable by no other reference while the '
        'call is active: let the method use its parameter.', (
        '`{name}` must still be {empty} when this call is undone, and it was changed during the call.',
        '{names} must still be 0 or nil when this call is undone, and one of them was changed during the call.')),
    Rule(16, 'SharedArray', 'A statement must not change an element of an array and read another one of it by another name.', (
        '`{changed}` and `{read}` must not be one array: the statement changes an element of one and reads one of the other.',),
        'Read into a local first: `local int v = b[1]`, `a[0] += v`, `delocal int v = b[1]`.'),
)

FAULTS = tuple(rule._replace(is_fault=True) for rule in _FAULTS)
REFUSAL_OF: Dict[int, Rule] = {rule.number: rule for rule in REFUSALS}
FAULT_OF: Dict[int, Rule] = {rule.number: rule for rule in FAULTS}
