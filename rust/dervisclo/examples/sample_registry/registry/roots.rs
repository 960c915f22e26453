use super::{input, plain};
use dervisclo::builder::Builder;
use dervisclo::{Location, OperationType};

pub fn roots(document: &mut Builder) {
    document.schema(|schema| {
        schema.description(
            "All that the shop's gateway serves.\n\nChanges are announced a week ahead.",
        );
        schema.root_operation(OperationType::Query, "Query");
        schema.root_operation(OperationType::Mutation, "Mutation");
    });
    directives(document);
    query(document);
    mutation(document);
}

fn directives(document: &mut Builder) {
    document.repeatable_directive_definition("key", |key| {
        key.description("The fields by which another service finds the same thing.");
        input(key, "fields", "String!");
        key.locations([Location::Object, Location::Interface]);
    });
    document.directive_definition("cost", |cost| {
        cost.description("What one call is charged.");
        cost.input_value("weight", |weight| {
            weight.description("In points, of which a client has 1,000 a minute.");
            weight.ty("Int!");
            weight.int(1);
        });
        cost.input_value("multipliers", |multipliers| {
            multipliers.description("Arguments that the weight is multiplied by.");
            multipliers.ty("[String!]");
            multipliers.list(|_| ());
        });
        cost.locations([Location::FieldDefinition, Location::ArgumentDefinition]);
    });
    document.directive_definition("internal", |internal| {
        internal.locations([
            Location::Schema,
            Location::Scalar,
            Location::FieldDefinition,
            Location::EnumValue,
            Location::InputFieldDefinition,
        ]);
    });
}

fn query(document: &mut Builder) {
    document.object_type("Query", |query| {
        query.field_definition("node", |node| {
            node.description("Anything that has an id.");
            input(node, "id", "ID!");
            node.ty("Node");
        });
        query.field_definition("products", |products| {
            products.description("Products that can be bought today.");
            products.input_value("where", |filter| {
                filter.description("All of them where it is left out.");
                filter.ty("ProductFilter");
            });
            products.input_value("first", |first| {
                first.description("At most 100.");
                first.ty("Int!");
                first.int(20);
            });
            products.input_value("after", |after| after.ty("String"));
            products.ty("ProductConnection!");
            products.directive("cost", |cost| {
                cost.argument("weight", |weight| weight.int(5));
                cost.argument("multipliers", |names| {
                    names.list(|list| list.string("first"))
                });
            });
        });
        query.field_definition("search", |search| {
            search.description("Finds what holds all words of the \"text\", in any order.");
            input(search, "text", "String!");
            search.input_value("sort", |sort| {
                sort.ty("SortOrder!");
                sort.enum_value("BEST_FIRST");
            });
            search.ty("[SearchResult!]!");
        });
        plain(query, "me", "Customer");
    });
}

fn mutation(document: &mut Builder) {
    document.object_type("Mutation", |mutation| {
        for (name, argument, ty) in [
            ("addToCart", "AddToCartInput!", "Cart!"),
            ("placeOrder", "PlaceOrderInput!", "Order!"),
            ("writeReview", "WriteReviewInput!", "Review"),
        ] {
            mutation.field_definition(name, |field| {
                input(field, "input", argument);
                field.ty(ty);
            });
        }
    });
}
