//! The grammar of Rattle as far as the sources use it, and of the facade. Every other form is refused.
//!
//! A line says what a rule reads: behind `=`, it makes a node that is named as the rule up to its point; behind `~`,
//! what it makes stands where the rule is named. A name before `(` makes a node of what is in the brackets. `/` is
//! between alternatives, of which the first that fits is taken. `?` is behind what may be missing, `*` behind what may
//! be there many times, `,*` behind what has commas between it. A sign between quotes is a token; `@` makes a node of
//! it, and `^` takes it also as the first half of a symbol. `&` and `!` look at what comes next. Behind `<<` stand
//! nodes that get what was read as their first part, one by one; behind `<!` stands one. Behind `PLAIN`, nothing is a
//! struct up to a bracket, as a block follows. Other capital letters name kinds of tokens.

pub const GRAMMAR: &str = r#"
module          = item* END

item            ~ use( visibility 'use' imports ';' ) / ghost_use / model / notes <! ( visibility <! declared ) / tactic
declared        ~ function / constant / alias / declaration( 'mod' name ';' ) / struct / enum / trait / implementation
visibility      = ( public( 'pub' !'(' ) / 'pub' '(' 'crate' ')' )?
notes           = ( COMMENTS ( DOC / attribute ) )* COMMENTS
attribute       ~ always( '#' '[' 'inline' '(' 'always' ')' ']' ) / '#' '[' hint ']' / derive / tactic
hint            ~ never( 'inline' '(' 'never' ')' ) / inline( 'inline' ) / cold( 'cold' ) / 'doc' '(' 'hidden' ')'
derive          = '#' '[' 'derive' '(' derived,* ')' ']'
derived         ~ @'Clone' / @'Copy' / @'Debug' / @'Drop' / @'Eq' / @'Ord' / @'PartialEq' / @'PartialOrd'
tactic          = '#' '!'? '[' 'tactic' '(' part_of_tactic,* ')' ']'
part_of_tactic  ~ WORD ( '::' part_of_tactic )? ( '(' part_of_tactic,* ')' )?

name            ~ NAME
name.self       = 'self'
name.own        = 'Self'

imports         ~ imported( head ) 'as' renamed( name ) / imported( head ( '::' name )* ) ( '::' listed )?
head            ~ name( 'crate' ) / name
listed          ~ import( name( '*' ) ) / '{' model_import( 'Model' ',' )? &name import( name ),* '}'

ghost_use       = 'ghost' 'use' WORD ( '.' WORD )* '.' '{' GHOST_NAME,* '}' ';'
ghost.defined   = 'ghost' WORD '=' CLAUSE ';'
ghost.field     = 'ghost' WORD ':' CLAUSE ( ',' / &'}' )
model           = 'impl' generics 'Model' 'for' type members( '{' ( ghost_use / ghost.defined )* '}' )

constant        = ( 'const' / 'static' ) name ':' type value( '=' expression )? ';'
alias           = 'type' name generics '=' type ';'
struct          = 'struct' name generics ( ';' / '{' ( ghost.field / field ( ',' / &'}' ) )* '}' )
field           = notes visibility name ':' type
enum            = 'enum' name generics '{' variant( notes name ( '{' field,* '}' / '(' type,* ')' )? ),* '}'
trait           = 'trait' name generics ( ':' path.bound( names_of_type ) )? members.trait
members.trait   = '{' ( ghost.declared( 'ghost' WORD ':' CLAUSE ';' ) / notes <! ( function / constant ) )* '}'
implementation  = 'impl' generics ( path.trait( names_of_type ) 'for' )? type members
members         = '{' ( ghost_use / ghost.defined / notes <! ( visibility <! ( function / constant / alias ) ) )* '}'
function        = 'fn' ( !'fmt' name generics / name writer ) parameters output( '->' type )? clause* ( block / ';' )
writer          = '<' 'W' ':' 'fmt' '::' 'Write' '>'
parameters      ~ '(' ( receiver( shared( '&' )? mutable? name.self ) ( ',' / &')' ) )? parameter,* ')'
parameter       = mutable? name ':' type
mutable         = 'mut'
clause          ~ condition( 'requires' name? CLAUSE ) / promise( 'ensures' name? CLAUSE )
generics        = ( '<' generic,* ^'>' )?
generic         ~ LIFETIME / generic.constant( 'const' name ':' type ) / generic.type
generic.type    = name ( ':' path.bound( names_of_type ) )?

type            ~ reference.type / tuple.type / list.type / formatter / path.type( names_of_type )
reference.type  = ^'&' LIFETIME? mutable? type
tuple.type      = '(' ( type ',' &type type,* )? ')'
list.type       = '[' type ( ';' length )? ']'
formatter       = 'fmt' '::' 'Formatter' '<' 'W' '>'
length          ~ INTEGER / path.value
names_of_type   ~ segment.type ( '::' segment.type )?
segment.type    = ( name / name.own ) arguments
arguments       = ( '<' argument,* ^'>' )?
argument        ~ LIFETIME / literal / type

pattern         ~ single << either( '|' single )
single          ~ wildcard( '_' ) / tuple.pattern / list.pattern / range / literal / variant_or_path / binding
variant_or_path ~ call.pattern / struct.pattern / path.pattern
tuple.pattern   = '(' element,* ')'
list.pattern    = '[' element,* ']'
element         ~ rest( '..' ) / pattern
range           = literal '..=' literal
call.pattern    = path.pattern '(' element,* ')'
struct.pattern  = path.made '{' binding.name,* '..'? '}'
path.pattern    = &CAPITAL names / segment '::' segment
path.made       = &CAPITAL names
binding         = mutable? name ( '@' element )?
binding.name    = name

expression      ~ or << assign( ( @'=' / @'+=' ) expression )
or              ~ and << binary( @'||' and )
and             ~ comparison << binary( @'&&' comparison )
comparison      ~ bit_or << binary( compared bit_or !compared )
compared        ~ @'==' / @'!=' / @'<' / @'>' / @'<=' / @'>='
bit_or          ~ bit_xor << binary( @'|' bit_xor )
bit_xor         ~ bit_and << binary( @'^' bit_and )
bit_and         ~ shift << binary( @'&' shift )
shift           ~ sum << binary( ( @'<<' / @'>>' ) sum )
sum             ~ product << binary( ( @'+' / @'-' ) product )
product         ~ cast_or_less << binary( ( @'*' / @'/' / @'%' ) cast_or_less )
cast_or_less    ~ unary << cast( 'as' ( signed / unsigned ) )
signed          ~ @'i8' / @'i16' / @'i32' / @'i64' / @'i128' / @'isize'
unsigned        ~ @'u8' / @'u16' / @'u32' / @'u64' / @'u128' / @'usize'
unary           ~ reference.value / negation / primary << ( try( '?' ) / in_brackets / method / member_of )
method          = '.' name arguments.value '(' expression,* ')'
member_of       = '.' ( name / INTEGER )
reference.value = ^'&' mutable? unary
negation        = ( @'!' / @'-' / @'*' ) unary
in_brackets     ~ '[' ( part.to / expression <! ( index( ']' ) / part.from( '..' ']' ) / part.between ) )
part.between    = '..' expression ']'
part.to         = '..' expression ']'

primary         ~ literal / in_parentheses / repeat / list / closure / matches / named / block_like / return / break
named           ~ struct.value / call( path.callee( names ) '(' expression,* ')' ) / path.value
in_parentheses  ~ '(' expression <! ( group( ')' ) / tuple.more( ',' expression,* ')' ) )
list            = '[' expression,* ']'
repeat          = '[' ( literal / path.value ) ';' length ']'
closure         = '|' binding.name '|' expression
matches         = 'matches' '!' '(' expression ',' pattern ')'
struct.value    = STRUCTS path.made '{' given,* ( '..' ( all_of_self / path.given ) )? '}'
given           = name ':' expression / path.given
all_of_self     ~ negation( @'*' path( segment( name.self ) ) )
path.value      = names
path.given      = segment( name )
names           ~ segment ( '::' segment )?
segment         = ( name / name.self / name.own ) arguments.value
arguments.value = ( '::' '<' argument,* ^'>' )?
literal         ~ INTEGER !( '.' INTEGER ) / BYTE / TEXT / boolean( 'true' / 'false' )

block_like      ~ if / match / while / loop( 'loop' block ) / for / block
if              = 'if' PLAIN ( let( 'let' pattern '=' comparison ) / expression ) block ( 'else' ( if / block ) )?
match           = 'match' PLAIN expression '{' arm* '}'
arm             = COMMENTS pattern guard( 'if' expression )? '=>' ( ended_block ','? / expression ( ',' / &'}' ) )
while           = 'while' PLAIN expression block
for             = 'for' pattern 'in' PLAIN expression block
return          = 'return' expression?
break           = 'break'
block           = '{' statement* COMMENTS '}'
statement       ~ COMMENTS ( let / ended_block done? / expression ( done / &'}' ) )
ended_block     ~ block_like !'.' !'?'
let             = 'let' pattern annotation( ':' type )? '=' expression otherwise( 'else' block )? ';'
done            = ';'

facade          = ( notices <! ( proved( 'mod' 'proved' '{' inner_item* '}' ) / outer / ignored / export ) )* END
outer           = 'pub'? 'mod' !'proved' name ( ';' / '{' inner_item* '}' )
inner_item      ~ notices <! ( outer / export )
notices         = ( DOC / '#' '!' '[' known ']' / notice( '#' '[' known ']' ) )*
known           ~ ( 'allow' / 'cfg' / 'cfg_attr' / 'no_std' / 'rustfmt' / 'warn' ) in_attribute*
in_attribute    ~ lanes / !( 'path' / 'include' / 'macro_use' / 'proved' ) WORD / TEXT / '(' / ')' / ',' / '=' / '::' / '!'
lanes           = '"lanes"'
ignored         = 'extern' 'crate' 'std' ';' / 'compile_error' '!' '(' TEXT ')' ';'
export          = 'pub' 'use' imports ';'
"#;
