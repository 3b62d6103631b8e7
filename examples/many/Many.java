/** A concatenation of 201 ints, which are more than one call site may have: javac makes three sites of it. */
class Many {
    static String joined(
            int n0, int n1, int n2, int n3, int n4, int n5, int n6, int n7, int n8, int n9,
            int n10, int n11, int n12, int n13, int n14, int n15, int n16, int n17, int n18,
            int n19, int n20, int n21, int n22, int n23, int n24, int n25, int n26, int n27,
            int n28, int n29, int n30, int n31, int n32, int n33, int n34, int n35, int n36,
            int n37, int n38, int n39, int n40, int n41, int n42, int n43, int n44, int n45,
            int n46, int n47, int n48, int n49, int n50, int n51, int n52, int n53, int n54,
            int n55, int n56, int n57, int n58, int n59, int n60, int n61, int n62, int n63,
            int n64, int n65, int n66, int n67, int n68, int n69, int n70, int n71, int n72,
            int n73, int n74, int n75, int n76, int n77, int n78, int n79, int n80, int n81,
            int n82, int n83, int n84, int n85, int n86, int n87, int n88, int n89, int n90,
            int n91, int n92, int n93, int n94, int n95, int n96, int n97, int n98, int n99,
            int n100, int n101, int n102, int n103, int n104, int n105, int n106, int n107,
            int n108, int n109, int n110, int n111, int n112, int n113, int n114, int n115,
            int n116, int n117, int n118, int n119, int n120, int n121, int n122, int n123,
            int n124, int n125, int n126, int n127, int n128, int n129, int n130, int n131,
            int n132, int n133, int n134, int n135, int n136, int n137, int n138, int n139,
            int n140, int n141, int n142, int n143, int n144, int n145, int n146, int n147,
            int n148, int n149, int n150, int n151, int n152, int n153, int n154, int n155,
            int n156, int n157, int n158, int n159, int n160, int n161, int n162, int n163,
            int n164, int n165, int n166, int n167, int n168, int n169, int n170, int n171,
            int n172, int n173, int n174, int n175, int n176, int n177, int n178, int n179,
            int n180, int n181, int n182, int n183, int n184, int n185, int n186, int n187,
            int n188, int n189, int n190, int n191, int n192, int n193, int n194, int n195,
            int n196, int n197, int n198, int n199, int n200) {
        return ""
                + n0 + n1 + n2 + n3 + n4 + n5 + n6 + n7 + n8 + n9 + n10 + n11 + n12 + n13 + n14
                + n15 + n16 + n17 + n18 + n19 + n20 + n21 + n22 + n23 + n24 + n25 + n26 + n27
                + n28 + n29 + n30 + n31 + n32 + n33 + n34 + n35 + n36 + n37 + n38 + n39 + n40
                + n41 + n42 + n43 + n44 + n45 + n46 + n47 + n48 + n49 + n50 + n51 + n52 + n53
                + n54 + n55 + n56 + n57 + n58 + n59 + n60 + n61 + n62 + n63 + n64 + n65 + n66
                + n67 + n68 + n69 + n70 + n71 + n72 + n73 + n74 + n75 + n76 + n77 + n78 + n79
                + n80 + n81 + n82 + n83 + n84 + n85 + n86 + n87 + n88 + n89 + n90 + n91 + n92
                + n93 + n94 + n95 + n96 + n97 + n98 + n99 + n100 + n101 + n102 + n103 + n104
                + n105 + n106 + n107 + n108 + n109 + n110 + n111 + n112 + n113 + n114 + n115
                + n116 + n117 + n118 + n119 + n120 + n121 + n122 + n123 + n124 + n125 + n126
                + n127 + n128 + n129 + n130 + n131 + n132 + n133 + n134 + n135 + n136 + n137
                + n138 + n139 + n140 + n141 + n142 + n143 + n144 + n145 + n146 + n147 + n148
                + n149 + n150 + n151 + n152 + n153 + n154 + n155 + n156 + n157 + n158 + n159
                + n160 + n161 + n162 + n163 + n164 + n165 + n166 + n167 + n168 + n169 + n170
                + n171 + n172 + n173 + n174 + n175 + n176 + n177 + n178 + n179 + n180 + n181
                + n182 + n183 + n184 + n185 + n186 + n187 + n188 + n189 + n190 + n191 + n192
                + n193 + n194 + n195 + n196 + n197 + n198 + n199 + n200;
    }
}
