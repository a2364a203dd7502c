/* What the planner expects of conditions on a column, from what ANALYZE has stored of it. For `@>` and `&&` PostgreSQL has the
 * estimates of arrays, whose elements are positions here. */
#include "fixedbitset.h"

#include <math.h>

#include "catalog/pg_am.h"
#include "catalog/pg_operator.h"
#include "catalog/pg_statistic.h"
#include "nodes/makefuncs.h"
#include "nodes/nodeFuncs.h"
#include "nodes/pathnodes.h"
#include "nodes/plannodes.h"
#include "nodes/supportnodes.h"
#include "optimizer/optimizer.h"
#include "optimizer/plancat.h"
#include "utils/array.h"
#include "utils/fmgrprotos.h"
#include "utils/lsyscache.h"
#include "utils/selfuncs.h"

/* As many positions are looked at of a constant. */
enum { MOST_OF_CONSTANT = 100000 };

/* GIN looks up each key of a query in each row that it finds, and the planner's cost does not count this. For `<@` it is asked
 * where these are at most so many for each row of the table: then it takes less time than all rows. */
enum { MOST_LOOKUPS = 4 };

#define ROOT ((PlannerInfo *)PG_GETARG_POINTER(0))
#define OPERANDS ((List *)PG_GETARG_POINTER(2))

/* An operand's value, or NULL where it is not known, or null. A subquery of an expression alone, as policies have them, is that
 * expression. */
static const Const *value_of(PlannerInfo *root, Node *operand) {
    ListCell *cell;
    foreach (cell, IsA(operand, Param) ? root->init_plans : NIL) {
        SubPlan *subplan = lfirst_node(SubPlan, cell);
        Plan *plan = planner_subplan_get_plan(root, subplan);
        if (list_member_int(subplan->setParam, ((Param *)operand)->paramid) && IsA(plan, Result) && plan->lefttree == NULL)
            operand = (Node *)linitial_node(TargetEntry, plan->targetlist)->expr;
    }
    operand = estimate_expression_value(root, operand);
    return IsA(operand, Const) && !((Const *)operand)->constisnull ? (Const *)operand : NULL;
}

/* Whether a value is a set. A position is passed by value. */
static bool is_set(const Const *value) {
    return value && !value->constbyval && value->consttype != INT8ARRAYOID;
}

/* How many positions a constant set has. */
static size_t count_of(const Const *constant) {
    Reading reading;
    const bits *set = read_set(&reading, constant->constvalue);
    size_t count = bits_count_ones(set, 0, set->length);
    done_reading(&reading);
    return count;
}

/* How many positions a constant range has: one that is not known, or has no end, as many as the longest set. */
static double width_of(const Const *constant) {
    Span span = constant ? span_of(constant->constvalue, MAX_LENGTH) : (Span){0, MAX_LENGTH};
    return (double)span.end - (double)span.start;
}

/* An operand as PostgreSQL's estimate takes it: a constant as an array of its positions, and all else as if it were one. */
static Node *as_array(PlannerInfo *root, Node *operand) {
    const Const *constant = value_of(root, operand);
    Datum *positions, array;
    int count = 1;
    bits_walk walk = BITS_WALK;
    Reading reading;
    if (constant == NULL)
        return (Node *)makeRelabelType((Expr *)strip_implicit_coercions(operand), INT8ARRAYOID, -1, InvalidOid,
                                       COERCE_IMPLICIT_CAST);
    if (constant->consttype == INT8ARRAYOID)
        return (Node *)constant;
    positions = palloc(MOST_OF_CONSTANT * sizeof(Datum));
    positions[0] = constant->constvalue;
    if (is_set(constant)) {
        bits_ones(&walk, read_set(&reading, constant->constvalue));
        count = bits_ones_batch(&walk, positions, MOST_OF_CONSTANT);
        done_reading(&reading);
    }
    array = PointerGetDatum(construct_array(positions, count, INT8OID, sizeof(int64), FLOAT8PASSBYVAL, TYPALIGN_DOUBLE));
    return (Node *)makeConst(INT8ARRAYOID, -1, InvalidOid, -1, array, false, false);
}

/* The share of the rows for which an operator holds: that of the operator of arrays. */
static double share(FunctionCallInfo fcinfo, Oid of_arrays) {
    List *arrays = list_make2(as_array(ROOT, linitial(OPERANDS)), as_array(ROOT, lsecond(OPERANDS)));
    return DatumGetFloat8(
        DirectFunctionCall4(arraycontsel, PG_GETARG_DATUM(0), of_arrays, PointerGetDatum(arrays), PG_GETARG_DATUM(3)));
}

/* What ANALYZE has stored of a column: the shares of the frequent positions, and the counts. */
typedef struct Known {
    VariableStatData column;
    AttStatsSlot positions;
    AttStatsSlot counts;
} Known;

static void forget(Known *known) {
    free_attstatsslot(&known->positions);
    free_attstatsslot(&known->counts);
    ReleaseVariableStats(known->column);
}

/* Whether there is such for an operand. If so, it is to be forgotten. (Without a position in the rows there are no shares.) */
static bool know(Known *known, PlannerInfo *root, Node *operand, int table) {
    HeapTuple tuple;
    examine_variable(root, operand, table, &known->column);
    tuple = known->column.statsTuple;
    if (HeapTupleIsValid(tuple) &&
        get_attstatsslot(&known->counts, tuple, STATISTIC_KIND_DECHIST, InvalidOid, ATTSTATSSLOT_NUMBERS)) {
        get_attstatsslot(&known->positions, tuple, STATISTIC_KIND_MCELEM, InvalidOid,
                         ATTSTATSSLOT_VALUES + ATTSTATSSLOT_NUMBERS);
        return true;
    }
    ReleaseVariableStats(known->column);
    return false;
}

/* The share of the rows that are not null. All other shares are of these. */
static double not_null(const Known *known) {
    return 1 - ((Form_pg_statistic)GETSTRUCT(known->column.statsTuple))->stanullfrac;
}

/* How many positions a row has in the mean. It stands behind the bounds of the counts. */
static double mean_count(const Known *known) {
    return known->counts.numbers[known->counts.nnumbers - 1];
}

/* The share of the rows without a position, by the bounds of the counts. */
static double clear_share(const Known *known) {
    int bounds = known->counts.nnumbers - 1, clear = 0;
    while (clear < bounds && known->counts.numbers[clear] == 0)
        clear++;
    return (double)clear / bounds;
}

/* The share of the rows whose positions all are in a set. It is no more than that of the rows without the frequent positions that
 * the set lacks, as if positions were independent. And it is no more than the mean over the counts, as if each position of a row
 * were in the set as often as one of the mean row is: of the others the set has no more than there are, and each no more often
 * than the most frequent of them. */
static double contained_share(const Known *known, const bits *set) {
    const AttStatsSlot *positions = &known->positions, *counts = &known->counts;
    int bounds = counts->nnumbers - 1, found = 0;
    double without = 1, frequent = 0, inside = 0, others = 0, all = 0;
    for (int k = 0; k < positions->nvalues; k++) {
        bool has = bits_contains(set, DatumGetInt64(positions->values[k]));
        frequent += positions->numbers[k];
        inside += has ? positions->numbers[k] : 0;
        without *= has ? 1 : 1 - positions->numbers[k];
        found += has;
    }
    if (positions->nvalues > 0)
        others = positions->numbers[positions->nvalues] * (bits_count_ones(set, 0, set->length) - found);
    inside += Min(others, Max(mean_count(known) - frequent, 0));
    for (int k = 0; k < bounds; k++)
        all += counts->numbers[k] > 0 ? pow(Min(inside / mean_count(known), 1), counts->numbers[k]) : 1;
    return Min(without, all / bounds);
}

/* That share, where the operands are a column of which it is known and a constant set. */
static bool is_known(PlannerInfo *root, Node *column, Node *operand, int table, float8 *share_of_rows) {
    const Const *constant = value_of(root, operand);
    Known known;
    Reading reading;
    if (!is_set(constant) || !know(&known, root, column, table))
        return false;
    *share_of_rows = contained_share(&known, read_set(&reading, constant->constvalue)) * not_null(&known);
    done_reading(&reading);
    forget(&known);
    return true;
}

/* The share of the rows for which `@>` or `<@` holds. `inner` is the operand whose positions all have to be in the other one. */
static Datum share_by_containment(FunctionCallInfo fcinfo, Oid of_arrays, int inner) {
    float8 found;
    if (!is_known(ROOT, list_nth(OPERANDS, inner), list_nth(OPERANDS, 1 - inner), PG_GETARG_INT32(3), &found))
        found = share(fcinfo, of_arrays);
    PG_RETURN_FLOAT8(found);
}

BY(bitset_contains_share, share_by_containment, OID_ARRAY_CONTAINS_OP, 1)
BY(bitset_contained_share, share_by_containment, OID_ARRAY_CONTAINED_OP, 0)

FUNCTION(bitset_overlap_share) {
    PG_RETURN_FLOAT8(share(fcinfo, OID_ARRAY_OVERLAP_OP));
}

/* The share of the rows that an index finds for `<@`, which are looked at: those with a position of the other operand, and those
 * without one. */
FUNCTION(bitset_found_share) {
    float8 found = share(fcinfo, OID_ARRAY_OVERLAP_OP);
    Known known;
    if (know(&known, ROOT, linitial(OPERANDS), PG_GETARG_INT32(3))) {
        found = Min(found + clear_share(&known) * not_null(&known), 1);
        forget(&known);
    }
    PG_RETURN_FLOAT8(found);
}

/* What a GIN index is asked in place of `column <@ constant` or `constant @> column`, where `inner` is the column: the same by an
 * operator whose estimate is how many rows the index finds, so that the planner counts these. Nothing where the constant is not
 * known, or has so many positions that the index would look up too many in the rows that it finds. */
static Datum index_condition(FunctionCallInfo fcinfo, int inner) {
    SupportRequestIndexCondition *request = (SupportRequestIndexCondition *)PG_GETARG_POINTER(0);
    List *operands;
    const Const *outer;
    Expr *condition;
    Selectivity found;
    Oid type, operator;
    if (!IsA(request, SupportRequestIndexCondition) || request->index->relam != GIN_AM_OID || request->indexarg != inner)
        PG_RETURN_POINTER(NULL);
    operands = IsA(request->node, OpExpr) ? ((OpExpr *)request->node)->args : ((FuncExpr *)request->node)->args;
    operands = list_make2(list_nth(operands, inner), list_nth(operands, 1 - inner));
    outer = value_of(request->root, lsecond(operands));
    type = request->index->opcintype[request->indexcol];
    operator = get_opfamily_member(request->opfamily, type, type, SUBSET);
    if (!is_set(outer) || !OidIsValid(operator))
        PG_RETURN_POINTER(NULL);
    found = restriction_selectivity(request->root, operator, operands, InvalidOid, request->index->rel->relid);
    if (count_of(outer) * found > MOST_LOOKUPS)
        PG_RETURN_POINTER(NULL);
    condition = make_opclause(operator, BOOLOID, false, linitial(operands), lsecond(operands), InvalidOid, InvalidOid);
    PG_RETURN_POINTER(list_make1(condition));
}

BY(bitset_subset_support, index_condition, 0)
BY(bitset_superset_support, index_condition, 1)

/* How many rows `ones` and `runs` return at most: as many as a constant has positions, or a row of the column in the mean, and no
 * more than a constant range has. */
FUNCTION(bitset_ones_support) {
    SupportRequestRows *request = (SupportRequestRows *)PG_GETARG_POINTER(0);
    List *arguments;
    const Const *set;
    Known known;
    if (!IsA(request, SupportRequestRows) || request->root == NULL || !IsA(request->node, FuncExpr))
        PG_RETURN_POINTER(NULL);
    arguments = ((FuncExpr *)request->node)->args;
    set = value_of(request->root, linitial(arguments));
    if (is_set(set))
        request->rows = count_of(set);
    else if (know(&known, request->root, linitial(arguments), 0)) {
        request->rows = mean_count(&known);
        forget(&known);
    } else
        PG_RETURN_POINTER(NULL);
    if (list_length(arguments) == 2)
        request->rows = Min(request->rows, width_of(value_of(request->root, lsecond(arguments))));
    PG_RETURN_POINTER(request);
}
