import "shop" as shop;
let tea = price("tea");
let cup = price("cup");
(tea + cup) * shop::rate
