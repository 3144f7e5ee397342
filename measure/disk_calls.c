/* Measures in C what the calls of a disk cost: sequential writes and reads of 4 KiB and 64 KiB, and writes with a sync
   each. They go to a scratch file in the current folder, which is removed. For each size it prints the size, the number of
   pieces, and the microseconds of each kind, as `bench disk` of crates/bench does (docs/PERFORMANCE.md). The argument is
   the number of pieces.

       gcc -O2 -o disk_calls measure/disk_calls.c && ./disk_calls 10000
*/
#define _GNU_SOURCE
#include <fcntl.h>
#include <stdio.h>
#include <stdlib.h>
#include <time.h>
#include <unistd.h>
static double now(void){struct timespec t;clock_gettime(CLOCK_MONOTONIC,&t);return t.tv_sec*1e6+t.tv_nsec/1e3;}
static void writes(int fd,char*b,size_t n,long c){off_t p=0;for(long i=0;i<c;i++){if(pwrite(fd,b,n,p)!=(ssize_t)n)exit(2);p+=n;}}
static void reads(int fd,char*b,size_t n,long c){off_t p=0;for(long i=0;i<c;i++){if(pread(fd,b,n,p)!=(ssize_t)n)exit(2);p+=n;}}
static void syncs(int fd,char*b,size_t n,long c){for(long i=0;i<c;i++){if(pwrite(fd,b,n,0)!=(ssize_t)n)exit(2);if(fsync(fd))exit(3);}}
int main(int argc,char**argv){
  long c=argc>1?atol(argv[1]):64; size_t sizes[]={4096,65536};
  int fd=open("bench_c.scratch",O_RDWR|O_CREAT,0666); if(fd<0)return 1;
  for(int k=0;k<2;k++){size_t n=sizes[k];char*b=malloc(n);for(size_t i=0;i<n;i++)b[i]=7;
    if(ftruncate(fd,(off_t)n*c))return 1;
    writes(fd,b,n,c);
    double a=now();writes(fd,b,n,c);double w=now()-a;
    a=now();reads(fd,b,n,c);double r=now()-a;
    if(fsync(fd))exit(3);a=now();syncs(fd,b,n,c/64);double s=now()-a;
    printf("%zu %ld write %.0f read %.0f sync %.0f\n",n,c,w,r,s);free(b);}
  close(fd);unlink("bench_c.scratch");return 0;}
