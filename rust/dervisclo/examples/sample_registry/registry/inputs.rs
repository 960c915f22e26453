use super::{deprecated, input};
use dervisclo::builder::Builder;

pub fn inputs(document: &mut Builder) {
    document.input_object_type("ProductFilter", |filter| {
        filter.description("What is left out does not matter.");
        input(filter, "nameContains", "String");
        filter.input_value("currency", |currency| {
            currency.ty("Currency!");
            currency.enum_value("EUR");
        });
        filter.input_value("price", |price| {
            price.description("Both ends are within.");
            price.ty("Range");
            price.object(|range| {
                range.object_field("from", |from| from.float("0.01"));
                range.object_field("to", |to| to.null());
            });
        });
        filter.input_value("tags", |tags| {
            tags.ty("[String!]!");
            tags.list(|list| {
                list.string("new");
                list.string("in stock");
            });
        });
        filter.input_value("isOnSale", |sale| {
            sale.ty("Boolean");
            sale.boolean(false);
            deprecated(sale, "Use `tags`.");
        });
    });
    document.input_object_type("Range", |range| {
        input(range, "from", "Float");
        input(range, "to", "Float");
    });
    document.input_object_type("AddToCartInput", |add| {
        input(add, "product", "ID!");
        add.input_value("quantity", |quantity| {
            quantity.ty("Int!");
            quantity.int(1);
        });
    });
    document.input_object_type("PlaceOrderInput", |place| {
        input(place, "cart", "ID!");
        input(place, "address", "[[String!]!]");
        place.input_value("note", |note| {
            note.description("Printed on the parcel.");
            note.ty("String");
            note.string("Thank you,\nand come back.");
        });
    });
    document.input_object_type("WriteReviewInput", |review| {
        input(review, "product", "ID!");
        input(review, "stars", "Int!");
        input(review, "text", "String");
    });
}
