//! What single services add to the schema.

use super::{input, plain, told};
use dervisclo::OperationType;
use dervisclo::builder::Builder;

pub fn services(document: &mut Builder) {
    document.extend_schema(|schema| {
        schema.directive("internal", |_| ());
        schema.root_operation(OperationType::Subscription, "Subscription");
    });
    document.object_type("Subscription", |subscription| {
        subscription.field_definition("orderChanged", |changed| {
            input(changed, "id", "ID!");
            changed.ty("Order!");
        });
    });
    document.extend_scalar("Decimal", |decimal| decimal.directive("internal", |_| ()));
    document.object_type("Shelf", |shelf| {
        shelf.interfaces(["Node"]);
        plain(shelf, "id", "ID!");
        told(shelf, "pieces", "0 where it is empty.", "Int!");
    });
    document.extend_object("Product", |product| {
        product.interfaces(["Stored"]);
        plain(product, "isInStock", "Boolean!");
        product.field_definition("shelves", |shelves| {
            input(shelves, "city", "String");
            shelves.ty("[Shelf!]!");
        });
    });
    document.interface_type("Stored", |stored| {
        plain(stored, "shelves", "[Shelf!]!");
    });
    document.extend_interface("Sellable", |sellable| {
        plain(sellable, "isInStock", "Boolean!")
    });
    document.extend_union("SearchResult", |result| result.union_members(["Shelf"]));
    document.extend_enum("OrderStatus", |status| {
        status.enum_value_definition("LOST", |value| value.directive("internal", |_| ()));
    });
    document.extend_input_object("ProductFilter", |filter| {
        filter.input_value("isInStock", |stock| {
            stock.ty("Boolean");
            stock.boolean(true);
        });
    });
}
