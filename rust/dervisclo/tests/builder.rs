//! The builder: the table of the known query, the text of each method, and what becomes of large tables and mistakes.

use dervisclo::builder::Builder;
use dervisclo::{Location, NodeKind, OperationType, Style, Table, TableRefusal};

/// The text on one line.
fn line(table: &Table) -> String {
    String::from_utf8(table.print(&Style::one_line()).unwrap()).unwrap()
}

fn document(text: &str, below: impl FnOnce(&mut Builder)) {
    assert_eq!(line(&Table::document(below)), text);
}

/// `{ .. }`
fn selected(text: &str, below: impl FnOnce(&mut Builder)) {
    document(text, |document| document.query("", below));
}

/// `scalar S @d(a: ..)`
fn value(text: &str, below: impl FnOnce(&mut Builder)) {
    document(&format!("scalar S @d(a: {text})"), |document| {
        document.scalar_type("S", |s| {
            s.directive("d", |d| d.argument("a", below));
        });
    });
}

/// `type O { f: .. }`
fn typed(text: &str, below: impl FnOnce(&mut Builder)) {
    document(&format!("type O {{ f: {text} }}"), |document| {
        document.object_type("O", |o| o.field_definition("f", below));
    });
}

#[test]
fn the_query_of_a_is_document_01s_table() {
    let table = Table::document(|document| document.query("", |query| query.fields(["a"])));
    let words = [0, 0, 0, 0, 3, 1, 0, 0, 0, 3, 29, 0, 0, 1, 3];
    assert_eq!((&table.words[..], &table.pool[..]), (&words[..], &b"a"[..]));
    let text = table.print(&Style::default());
    assert_eq!(text, Ok(b"{\n  a\n}\n".to_vec()));
}

#[test]
fn known_input_object() {
    let table = Table::document(|document| {
        document.input_object_type("I", |i| {
            i.input_value("a", |a| {
                a.ty("[Int]");
                a.list(|list| {
                    list.int(1);
                    list.int(2);
                });
            });
        });
    });
    let text = "input I {\n  a: [Int] = [\n    1,\n    2,\n  ]\n}\n";
    assert_eq!(table.print(&Style::default()), Ok(text.into()));
}

#[test]
fn operations() {
    let a = |node: &mut Builder| node.fields(["a"]);
    document("{ a }", |document| document.query("", a));
    document("query Q { a }", |document| document.query("Q", a));
    document("mutation M { a }", |document| document.mutation("M", a));
    document("subscription { a }", |document| {
        document.subscription("", a)
    });
    document("mutation { a }", |document| {
        document.operation(OperationType::Mutation, "", a)
    });
    document("fragment F on T @d { a }", |document| {
        document.fragment("F", "T", |fragment| {
            fragment.directive("d", |_| ());
            fragment.fields(["a"]);
        });
    });
    document("query($v: [Int!] = [1] @d) @e { a }", |document| {
        document.query("", |query| {
            query.variable_definition("v", |v| {
                v.ty("[Int!]");
                v.list(|list| list.int(1));
                v.directive("d", |_| ());
            });
            query.directive("e", |_| ());
            query.fields(["a"]);
        });
    });
}

#[test]
fn selections() {
    selected("{ a b }", |query| query.fields(["a", "b"]));
    selected("{ c: a(n: 1, m: $v) @d { b } }", |query| {
        query.field("a", |a| {
            a.alias("c");
            a.argument("n", |n| n.int(1));
            a.argument("m", |m| m.variable("v"));
            a.directive("d", |_| ());
            a.field("b", |_| ());
        });
    });
    selected("{ ...F ...G @d }", |query| {
        query.fragment_spread("F", |_| ());
        query.fragment_spread("G", |g| g.directive("d", |_| ()));
    });
    selected("{ ... on T { a } ... @d { b } }", |query| {
        query.inline_fragment("T", |t| t.fields(["a"]));
        query.inline_fragment("", |any| {
            any.directive("d", |_| ());
            any.fields(["b"]);
        });
    });
}

#[test]
fn values() {
    value("null", |a| a.null());
    value("true", |a| a.boolean(true));
    value("false", |a| a.boolean(false));
    value("RED", |a| a.enum_value("RED"));
    value(r#""say \"hi\"\n""#, |a| a.string("say \"hi\"\n"));
    value(r#""""#, |a| a.string(""));
    value("-1.50e3", |a| a.float("-1.50e3"));
    value("-12", |a| a.int(-12));
    value("340282366920938463463374607431768211455", |a| {
        a.int(u128::MAX)
    });
    value("7", |a| a.int("7"));
    value("[]", |a| a.list(|_| ()));
    value("[1, [RED]]", |a| {
        a.list(|list| {
            list.int(1);
            list.list(|inner| inner.enum_value("RED"));
        })
    });
    value("{}", |a| a.object(|_| ()));
    value("{b: 1, c: {d: null}}", |a| {
        a.object(|object| {
            object.object_field("b", |b| b.int(1));
            object.object_field("c", |c| {
                c.object(|inner| inner.object_field("d", |d| d.null()));
            });
        })
    });
}

#[test]
fn types() {
    for text in ["Int", "Int!", "[Int]", "[Int!]!", "[[Int]!]", "[[[A!]]!]!"] {
        typed(text, |f| f.ty(text));
    }
    typed("Int", |f| f.named_type("Int"));
    typed("Int!", |f| f.non_null_type("Int"));
    typed("[Int]", |f| f.list_type(|item| item.named_type("Int")));
    typed("[[Int!]]!", |f| {
        f.non_null_list_type(|item| item.list_type(|item| item.non_null_type("Int")))
    });
}

#[test]
fn what_is_no_type_is_refused() {
    for (text, place) in [
        ("", 3),
        ("!", 3),
        ("Int!!", 3),
        ("[Int", 3),
        ("Int]", 3),
        ("[]", 4),
        ("[ Int ]", 4),
        ("[[Int]!]!!", 3),
    ] {
        let table = Table::document(|document| {
            document.object_type("O", |o| o.field_definition("f", |f| f.ty(text)));
        });
        assert_eq!(table.check(), Err(TableRefusal::Text { place }), "{text}");
    }
}

#[test]
fn a_type_may_be_as_deep_as_its_text_is_long() {
    let deep = 200_000;
    let text = format!("{}Int{}", "[".repeat(deep), "]".repeat(deep));
    let table = Table::document(|document| {
        document.object_type("O", |o| o.field_definition("f", |f| f.ty(&text)));
    });
    assert_eq!(table.nodes(), deep + 4);
    assert_eq!(table.check(), Err(TableRefusal::Size));
}

#[test]
fn directive_definitions() {
    let names = "QUERY MUTATION SUBSCRIPTION FIELD FRAGMENT_DEFINITION FRAGMENT_SPREAD INLINE_FRAGMENT \
                 VARIABLE_DEFINITION SCHEMA SCALAR OBJECT FIELD_DEFINITION ARGUMENT_DEFINITION INTERFACE UNION ENUM \
                 ENUM_VALUE INPUT_OBJECT INPUT_FIELD_DEFINITION";
    let text = format!("directive @d on {}", names.replace(' ', " | "));
    document(&text, |document| {
        document.directive_definition("d", |d| {
            use Location::*;
            d.locations([
                Query,
                Mutation,
                Subscription,
                Field,
                FragmentDefinition,
                FragmentSpread,
                InlineFragment,
                VariableDefinition,
                Schema,
                Scalar,
                Object,
                FieldDefinition,
                ArgumentDefinition,
                Interface,
                Union,
                Enum,
                EnumValue,
                InputObject,
                InputFieldDefinition,
            ]);
        });
    });
    document(
        r#""D" directive @d(a: Int = 1 @e) repeatable on ENUM"#,
        |document| {
            document.repeatable_directive_definition("d", |d| {
                d.description("D");
                d.input_value("a", |a| {
                    a.ty("Int");
                    a.int(1);
                    a.directive("e", |_| ());
                });
                d.locations([Location::Enum]);
            });
        },
    );
}

#[test]
fn definitions() {
    use OperationType::{Mutation, Query, Subscription};
    let text = r#""D" schema @d { query: Q mutation: M subscription: S }"#;
    document(text, |document| {
        document.schema(|schema| {
            schema.description("D");
            schema.directive("d", |_| ());
            schema.root_operation(Query, "Q");
            schema.root_operation(Mutation, "M");
            schema.root_operation(Subscription, "S");
        });
    });
    document(r#""D" scalar S @d"#, |document| {
        document.scalar_type("S", described);
    });
    let text = r#""D" type O implements I & J @d { "E" f(a: Int): Int @d g: Int }"#;
    document(text, |document| document.object_type("O", object));
    let text = text.replace("type O", "interface O");
    document(&text, |document| document.interface_type("O", object));
    document(r#""D" union U @d = A | B"#, |document| {
        document.union_type("U", |u| {
            described(u);
            u.union_members(["A", "B"]);
        });
    });
    document(r#""D" enum E @d { "D" A @d B }"#, |document| {
        document.enum_type("E", |e| {
            described(e);
            e.enum_value_definition("A", described);
            e.enum_values(["B"]);
        });
    });
    document(r#""D" input I @d { "E" a: Int = null @d }"#, |document| {
        document.input_object_type("I", |i| {
            described(i);
            i.input_value("a", |a| {
                a.description("E");
                a.ty("Int");
                a.null();
                a.directive("d", |_| ());
            });
        });
    });
}

fn described(node: &mut Builder) {
    node.description("D");
    node.directive("d", |_| ());
}

fn object(object: &mut Builder) {
    object.description("D");
    object.interfaces(["I", "J"]);
    object.directive("d", |_| ());
    object.field_definition("f", |f| {
        f.description("E");
        f.input_value("a", |a| a.ty("Int"));
        f.ty("Int");
        f.directive("d", |_| ());
    });
    object.field_definition("g", |g| g.ty("Int"));
}

#[test]
fn extensions() {
    let d = |node: &mut Builder| node.directive("d", |_| ());
    document("extend schema @d", |document| document.extend_schema(d));
    document("extend scalar S @d", |document| {
        document.extend_scalar("S", d)
    });
    document("extend type O implements I", |document| {
        document.extend_object("O", |o| o.interfaces(["I"]))
    });
    document("extend interface O { f: Int }", |document| {
        document.extend_interface("O", |o| o.field_definition("f", |f| f.ty("Int")))
    });
    document("extend union U = A", |document| {
        document.extend_union("U", |u| u.union_members(["A"]))
    });
    document("extend enum E { A }", |document| {
        document.extend_enum("E", |e| e.enum_values(["A"]))
    });
    document("extend input I { a: Int }", |document| {
        document.extend_input_object("I", |i| i.input_value("a", |a| a.ty("Int")))
    });
    let table = Table::document(|document| document.extend_schema(|_| ()));
    assert_eq!(table.check(), Err(TableRefusal::Children { place: 1 }));
}

#[test]
fn equal_texts_lie_in_the_pool_once() {
    let table = Table::document(|document| {
        document.scalar_type("Same", |same| same.description("Same"));
        document.scalar_type("Other", |other| other.description(""));
    });
    assert_eq!(table.pool, b"SameOther");
    assert_eq!(table.check(), Ok(()));
    assert_eq!(line(&table), r#""Same" scalar Same "" scalar Other"#);
}

#[test]
fn mistakes_are_for_the_check() {
    let table = Table::document(|document| document.node(NodeKind::Scalar, 0, b"\xff", |_| ()));
    assert_eq!(table.check(), Err(TableRefusal::Text { place: 1 }));
    let table = Table::document(|document| document.node(NodeKind::Scalar, 2, "S", |_| ()));
    assert_eq!(table.check(), Err(TableRefusal::Node { place: 1 }));
    let late = Table::document(|document| {
        document.scalar_type("S", |s| {
            s.directive("d", |_| ());
            s.description("D");
        });
    });
    assert_eq!(late.check(), Err(TableRefusal::Children { place: 1 }));
    let float = Table::document(|document| {
        document.scalar_type("S", |s| {
            s.directive("d", |d| d.argument("a", |a| a.float("1")));
        });
    });
    assert_eq!(float.check(), Err(TableRefusal::Text { place: 4 }));
}

/// Names of so many scalars; the Document is a node too.
fn scalars(count: usize) -> Table {
    Table::document(|document| {
        for number in 0..count {
            document.scalar_type(&format!("S{}", number % 1_000), |_| ());
        }
    })
}

#[test]
fn a_table_too_large_is_refused_with_2() {
    assert_eq!(scalars(8_191).check(), Ok(()));
    let table = scalars(8_192);
    assert_eq!(table.nodes(), 8_193);
    assert_eq!(table.check(), Err(TableRefusal::Size));
    let described = |length| {
        Table::document(|document| {
            document.scalar_type("S", |s| s.description(&"x".repeat(length)));
        })
    };
    assert_eq!(described(65_535).check(), Ok(()));
    assert_eq!(described(65_536).check(), Err(TableRefusal::Size));
}

#[test]
fn every_kind_has_its_number() {
    for (number, kind) in NodeKind::ALL.into_iter().enumerate() {
        assert_eq!(kind.number() as usize, number);
        assert_eq!(NodeKind::from_number(kind.number()), Some(kind));
    }
    assert_eq!(NodeKind::from_number(45), None);
    assert_eq!(NodeKind::from_number(u32::MAX), None);
}
