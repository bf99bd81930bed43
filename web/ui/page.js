// @ts-check
/* The entry of the page's script. */
import { attempt } from "../host/elements.js";
import { begin } from "./start.js";
import "./testing.js";

attempt(begin);
