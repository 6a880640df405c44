/**
 * A cache of class metadata that outlives restarts and crashes: a server reads and checks each
 * class file once, and finds its record at the next start.
 *
 * <p>{@link org.cmcache.ClassCache} is a cache in a file, {@link org.cmcache.ClassRecord} what it
 * keeps of a class.
 */
package org.cmcache;
